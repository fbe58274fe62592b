/* Preloaded into the program: refuses the request for memory whose number, from 1, stands in REFUSE.
   Where it is refused the file REFUSED is made, at once, since a program with threads may end without its destructors.
   Threads may ask at once: each request has a number of its own, so at most one is refused; which one differs from run
   to run. */
#define _GNU_SOURCE
#include <dlfcn.h>
#include <errno.h>
#include <stdatomic.h>

#include "tell.h"

static atomic_long wanted = -1;
static atomic_long asked;

static int is_refused(void) {
  if (wanted < 0) {
    const char *text = getenv("REFUSE");
    wanted = text ? atol(text) : 0;
  }
  long number = wanted;
  if (number == 0 || ++asked != number) return 0;
  tell("REFUSED");
  errno = ENOMEM;
  return 1;
}

void *malloc(size_t size) {
  static void *(*real)(size_t);
  if (!real) real = dlsym(RTLD_NEXT, "malloc");
  return is_refused() ? NULL : real(size);
}

void *realloc(void *old, size_t size) {
  static void *(*real)(void *, size_t);
  if (!real) real = dlsym(RTLD_NEXT, "realloc");
  return is_refused() ? NULL : real(old, size);
}

int posix_memalign(void **out, size_t alignment, size_t size) {
  static int (*real)(void **, size_t, size_t);
  if (!real) real = dlsym(RTLD_NEXT, "posix_memalign");
  return is_refused() ? ENOMEM : real(out, alignment, size);
}

void *aligned_alloc(size_t alignment, size_t size) {
  static void *(*real)(size_t, size_t);
  if (!real) real = dlsym(RTLD_NEXT, "aligned_alloc");
  return is_refused() ? NULL : real(alignment, size);
}
