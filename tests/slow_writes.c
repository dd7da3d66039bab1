/* Put before the C library (LD_PRELOAD), this makes each write to a file of a store take 25 milliseconds; or each read
 * at a place 5, where SLOW_READS is set. */
#define _GNU_SOURCE
#include <dlfcn.h>
#include <stdlib.h>
#include <unistd.h>

static ssize_t (*next_pwrite)(int, const void *, size_t, off_t);
static ssize_t (*next_pread)(int, void *, size_t, off_t);
static int reads;

__attribute__((constructor)) static void begin(void) {
  next_pwrite = dlsym(RTLD_NEXT, "pwrite");
  next_pread = dlsym(RTLD_NEXT, "pread");
  reads = getenv("SLOW_READS") != NULL;
}

static ssize_t write_slowly(int file, const void *bytes, size_t length, off_t place) {
  if (!reads) usleep(25000);
  return next_pwrite(file, bytes, length, place);
}

static ssize_t read_slowly(int file, void *bytes, size_t length, off_t place) {
  if (reads) usleep(5000);
  return next_pread(file, bytes, length, place);
}

ssize_t pwrite(int file, const void *bytes, size_t length, off_t place) {
  return write_slowly(file, bytes, length, place);
}

ssize_t pwrite64(int file, const void *bytes, size_t length, off_t place) {
  return write_slowly(file, bytes, length, place);
}

ssize_t pread(int file, void *bytes, size_t length, off_t place) {
  return read_slowly(file, bytes, length, place);
}

ssize_t pread64(int file, void *bytes, size_t length, off_t place) {
  return read_slowly(file, bytes, length, place);
}
