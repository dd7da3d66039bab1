/* Put before the C library (LD_PRELOAD), this refuses threads of a program: the call of pthread_create whose number the
   variable REFUSED of the environment has, counted from 1, and so many from there on as REFUSED_COUNT says, or that one
   alone. It says so on the standard error, once. */
#define _GNU_SOURCE
#include <dlfcn.h>
#include <errno.h>
#include <pthread.h>
#include <stdatomic.h>
#include <stdlib.h>
#include <unistd.h>

static atomic_ulong calls, refusals;

static unsigned long number_in(const char *name, unsigned long otherwise) {
  const char *number = getenv(name);
  return number ? strtoul(number, NULL, 10) : otherwise;
}

int pthread_create(pthread_t *made, const pthread_attr_t *how, void *(*run)(void *), void *with) {
  static const char told[] = "thread refused\n";
  int (*create)(pthread_t *, const pthread_attr_t *, void *(*)(void *), void *) = dlsym(RTLD_NEXT, "pthread_create");
  unsigned long first = number_in("REFUSED", 0), number = atomic_fetch_add(&calls, 1) + 1;
  if (first == 0 || number < first || number - first >= number_in("REFUSED_COUNT", 1))
    return create(made, how, run, with);
  if (atomic_fetch_add(&refusals, 1) == 0 && write(STDERR_FILENO, told, sizeof told - 1) < 0)
    return create(made, how, run, with);
  return EAGAIN;
}
