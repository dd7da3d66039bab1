/* Put before the C library (LD_PRELOAD), this counts the calls by which a program asks a slot's file for its length or
   its bytes (lseek to its end, pread), from 1, and runs a command before one of them. It takes from the environment:
     SWAP_AT   the number of the call before which the command is run; 0 for none
     SWAP      the command
     COUNTED   a file to which the count is written at each call */
#define _GNU_SOURCE
#include <dlfcn.h>
#include <fcntl.h>
#include <stdio.h>
#include <stdlib.h>
#include <sys/stat.h>
#include <unistd.h>

static unsigned long calls, swap_at;
static int counted = -1;
static off_t (*next_lseek)(int, off_t, int);
static ssize_t (*next_pread)(int, void *, size_t, off_t);

__attribute__((constructor)) static void begin(void) {
  const char *number = getenv("SWAP_AT"), *file = getenv("COUNTED");
  next_lseek = dlsym(RTLD_NEXT, "lseek");
  next_pread = dlsym(RTLD_NEXT, "pread");
  swap_at = number ? strtoul(number, NULL, 10) : 0;
  if (file)
    counted = open(file, O_WRONLY | O_CREAT | O_CLOEXEC, 0666);
}

/* Counts a call, and runs the command where its turn has come. */
static void count(void) {
  char text[24];
  calls++;
  if (counted >= 0)
    pwrite(counted, text, snprintf(text, sizeof text, "%20lu\n", calls), 0);
  if (calls == swap_at) {
    unsetenv("LD_PRELOAD");
    if (system(getenv("SWAP")) != 0)
      _exit(99);
  }
}

off_t lseek(int file, off_t at, int from) {
  if (from == SEEK_END)
    count();
  return next_lseek(file, at, from);
}

ssize_t pread(int file, void *bytes, size_t length, off_t at) {
  count();
  return next_pread(file, bytes, length, at);
}

off_t lseek64(int, off_t, int) __attribute__((alias("lseek")));
ssize_t pread64(int, void *, size_t, off_t) __attribute__((alias("pread")));
