/* Put before the C library (LD_PRELOAD), this counts the file calls of a program (open, statx, lseek, pread, pwrite,
   ftruncate, fsync, fdatasync), from 1, and makes some fail. It takes from the environment:
     ONLY      the name of the calls that are counted, or a path whose opening is; else all of them are
     COUNTED   a file to which the count is written at each call, since a program may end by _exit
     FAILED    the number of the call that fails
     NAMED     a file to which the name of that call is written, or the path that it opens, looks at or syncs
     HOW       how it fails: `unmade` (EIO, and nothing is done), `made` (done, and then EIO), `full` (ENOSPC, and all
               later calls that make or change a file too), `interrupted` (EINTR once, and nothing is done), `short` (a
               read or a write of half the bytes), `other` (a read whose first byte is another one: somebody else
               wrote it) */
#define _GNU_SOURCE
#include <dlfcn.h>
#include <errno.h>
#include <fcntl.h>
#include <stdarg.h>
#include <stdio.h>
#include <stdlib.h>
#include <string.h>
#include <sys/stat.h>
#include <unistd.h>

enum how { UNMADE, MADE, FULL, INTERRUPTED, SHORT, OTHER };

static const char *const ways[] = {"unmade", "made", "full", "interrupted", "short", "other"};

static const char *only;
static unsigned long calls, failed;
static enum how how;
static int counted = -1, synced = -1;
static const char *looked_at = "";

static int (*next_open)(const char *, int, ...);
static int (*next_statx)(int, const char *, int, unsigned, struct statx *);
static off_t (*next_lseek)(int, off_t, int);
static ssize_t (*next_pread)(int, void *, size_t, off_t);
static ssize_t (*next_pwrite)(int, const void *, size_t, off_t);
static int (*next_ftruncate)(int, off_t);
static int (*next_fsync)(int);
static int (*next_fdatasync)(int);

__attribute__((constructor)) static void begin(void) {
  const char *number = getenv("FAILED"), *way = getenv("HOW"), *file = getenv("COUNTED");
  next_open = dlsym(RTLD_NEXT, "open");
  next_statx = dlsym(RTLD_NEXT, "statx");
  next_lseek = dlsym(RTLD_NEXT, "lseek");
  next_pread = dlsym(RTLD_NEXT, "pread");
  next_pwrite = dlsym(RTLD_NEXT, "pwrite");
  next_ftruncate = dlsym(RTLD_NEXT, "ftruncate");
  next_fsync = dlsym(RTLD_NEXT, "fsync");
  next_fdatasync = dlsym(RTLD_NEXT, "fdatasync");
  only = getenv("ONLY");
  failed = number ? strtoul(number, NULL, 10) : 0;
  for (size_t at = 0; way && at < sizeof ways / sizeof *ways; at++)
    if (strcmp(way, ways[at]) == 0)
      how = at;
  if (file)
    counted = next_open(file, O_WRONLY | O_CREAT | O_CLOEXEC, 0666);
}

/* The path of the file that is synced, as the system tells it. */
static const char *path_synced(void) {
  static char path[4096];
  char link[32];
  ssize_t length;
  snprintf(link, sizeof link, "/proc/self/fd/%d", synced);
  length = readlink(link, path, sizeof path - 1);
  path[length < 0 ? 0 : length] = 0;
  return path;
}

/* Writes the name of the call that fails. */
static void tell(const char *name) {
  const char *file = getenv("NAMED");
  int named = file ? next_open(file, O_WRONLY | O_CREAT | O_TRUNC | O_CLOEXEC, 0666) : -1;
  if (named < 0)
    return;
  if (strcmp(name, "fsync") == 0)
    name = path_synced();
  if (strcmp(name, "statx") == 0)
    name = looked_at;
  next_pwrite(named, name, strlen(name), 0);
  close(named);
}

/* Whether calls of a name are counted. */
static int counts(const char *name) { return !only || strcmp(only, name) == 0; }

/* Whether the call that is made now, of a name, is the one that is to fail. */
static int is_next(const char *name) { return counts(name) && calls + 1 == failed; }

/* Counts a call. Returns whether it is to fail; `changes` tells whether it makes or changes a file. */
static int fails(const char *name, int changes) {
  char text[24];
  if (!counts(name))
    return 0;
  calls++;
  if (counted >= 0)
    next_pwrite(counted, text, snprintf(text, sizeof text, "%20lu\n", calls), 0);
  if (calls == failed)
    tell(name);
  if (failed == 0 || calls < failed)
    return 0;
  return how == FULL ? changes : calls == failed;
}

/* The call is to fail, and isn't made: why. */
static int refuse(void) {
  errno = how == FULL ? ENOSPC : how == INTERRUPTED ? EINTR : EIO;
  return -1;
}

/* The call was made, and is to fail. */
static int forget(void) {
  errno = EIO;
  return -1;
}

#define FAIL_OR(name, changes, call)                                                                                   \
  do {                                                                                                                 \
    if (!fails(name, changes) || how == SHORT || how == OTHER)                                                         \
      return call;                                                                                                     \
    if (how != MADE)                                                                                                   \
      return refuse();                                                                                                 \
    call;                                                                                                              \
    return forget();                                                                                                   \
  } while (0)

int open(const char *path, int flags, ...) {
  mode_t mode = 0;
  if (flags & O_CREAT) {
    va_list rest;
    va_start(rest, flags);
    mode = va_arg(rest, mode_t);
    va_end(rest);
  }
  FAIL_OR(path, (flags & O_CREAT) != 0, next_open(path, flags, mode));
}

int statx(int folder, const char *restrict path, int flags, unsigned mask, struct statx *restrict found) {
  looked_at = path;
  FAIL_OR("statx", 0, next_statx(folder, path, flags, mask, found));
}

off_t lseek(int file, off_t at, int from) { FAIL_OR("lseek", 0, next_lseek(file, at, from)); }

int ftruncate(int file, off_t length) { FAIL_OR("ftruncate", 1, next_ftruncate(file, length)); }

int fsync(int file) {
  synced = file;
  FAIL_OR("fsync", 1, next_fsync(file));
}

int fdatasync(int file) { FAIL_OR("fdatasync", 1, next_fdatasync(file)); }

/* How many bytes a read or a write moves that is to fail. */
static size_t half(size_t length) { return length > 1 ? length / 2 : length; }

/* A read whose first byte is another one. */
static ssize_t other_pread(int file, void *bytes, size_t length, off_t at) {
  ssize_t had = next_pread(file, bytes, length, at);
  if (had > 0)
    *(unsigned char *)bytes ^= 1;
  return had;
}

ssize_t pread(int file, void *bytes, size_t length, off_t at) {
  int is_it = is_next("pread");
  if (how == OTHER && is_it)
    FAIL_OR("pread", 0, other_pread(file, bytes, length, at));
  FAIL_OR("pread", 0, next_pread(file, bytes, how == SHORT && is_it ? half(length) : length, at));
}

ssize_t pwrite(int file, const void *bytes, size_t length, off_t at) {
  int is_short = how == SHORT && is_next("pwrite");
  FAIL_OR("pwrite", 1, next_pwrite(file, bytes, is_short ? half(length) : length, at));
}

int open64(const char *, int, ...) __attribute__((alias("open")));
off_t lseek64(int, off_t, int) __attribute__((alias("lseek")));
ssize_t pread64(int, void *, size_t, off_t) __attribute__((alias("pread")));
ssize_t pwrite64(int, const void *, size_t, off_t) __attribute__((alias("pwrite")));
int ftruncate64(int, off_t) __attribute__((alias("ftruncate")));
