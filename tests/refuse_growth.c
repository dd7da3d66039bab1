/* Put before the C library (LD_PRELOAD), this refuses growths of a program: the call of malloc or realloc whose number
   the variable REFUSED of the environment has, counted from 1, and so many from there on as REFUSED_COUNT says, or that
   one alone. With REFUSED_THREAD only the growths of one thread are counted: threads are numbered from 0 by their first
   growth. It says so on the standard error, once. */
#include <errno.h>
#include <limits.h>
#include <stdatomic.h>
#include <stddef.h>
#include <stdlib.h>
#include <unistd.h>

extern void *__libc_malloc(size_t size);
extern void *__libc_realloc(void *at, size_t size);

static atomic_ulong calls, threads, refusals;
static unsigned long first, count;
static long thread;
static __thread unsigned long own_calls __attribute__((tls_model("initial-exec")));
static __thread long own_number __attribute__((tls_model("initial-exec"))) = -1;

static unsigned long number_in(const char *name, unsigned long otherwise) {
  const char *number = getenv(name);
  return number ? strtoul(number, NULL, 10) : otherwise;
}

__attribute__((constructor)) static void begin(void) {
  first = number_in("REFUSED", 0);
  count = number_in("REFUSED_COUNT", 1);
  thread = (long)number_in("REFUSED_THREAD", ULONG_MAX);
  atomic_store(&calls, 0);
  atomic_store(&threads, 0);
  own_number = -1;
  own_calls = 0;
}

/* The number of this growth among those that are counted, or 0. */
static unsigned long growth(void) {
  if (thread < 0)
    return atomic_fetch_add(&calls, 1) + 1;
  if (own_number < 0)
    own_number = (long)atomic_fetch_add(&threads, 1);
  return own_number == thread ? ++own_calls : 0;
}

static int is_refused(void) {
  static const char told[] = "growth refused\n";
  unsigned long number = growth();
  if (first == 0 || number < first || number - first >= count)
    return 0;
  if (atomic_fetch_add(&refusals, 1) == 0 && write(STDERR_FILENO, told, sizeof told - 1) < 0)
    return 0;
  errno = ENOMEM;
  return 1;
}

void *malloc(size_t size) { return is_refused() ? NULL : __libc_malloc(size); }

void *realloc(void *at, size_t size) { return is_refused() ? NULL : __libc_realloc(at, size); }
