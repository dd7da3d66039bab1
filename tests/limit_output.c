/* Put before the C library (LD_PRELOAD), this lets a program write so many bytes to its standard output as LIMIT in the
   environment says, and refuses the others (ENOSPC), as a disk that fills up does. */
#define _GNU_SOURCE
#include <dlfcn.h>
#include <errno.h>
#include <stdlib.h>
#include <unistd.h>

static size_t left;
static int is_limited;
static ssize_t (*next_write)(int, const void *, size_t);

__attribute__((constructor)) static void begin(void) {
  const char *limit = getenv("LIMIT");
  next_write = dlsym(RTLD_NEXT, "write");
  is_limited = limit != NULL;
  left = limit ? strtoul(limit, NULL, 10) : 0;
}

ssize_t write(int file, const void *bytes, size_t length) {
  ssize_t count;
  if (file != STDOUT_FILENO || !is_limited || length == 0)
    return next_write(file, bytes, length);
  if (left == 0) {
    errno = ENOSPC;
    return -1;
  }
  count = next_write(file, bytes, length < left ? length : left);
  if (count > 0)
    left -= (size_t)count;
  return count;
}
