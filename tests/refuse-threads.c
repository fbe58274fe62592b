/* Preloaded into the program: refuses the start of the thread whose number, from 1, stands in REFUSE_THREAD.
   Where it is refused the file REFUSED_THREAD is made, at once. */
#define _GNU_SOURCE
#include <dlfcn.h>
#include <errno.h>
#include <pthread.h>
#include <stdatomic.h>

#include "tell.h"

static atomic_long asked;

int pthread_create(pthread_t *thread, const pthread_attr_t *how, void *(*body)(void *), void *given) {
  static int (*real)(pthread_t *, const pthread_attr_t *, void *(*)(void *), void *);
  if (!real) real = dlsym(RTLD_NEXT, "pthread_create");
  const char *text = getenv("REFUSE_THREAD");
  if (text && ++asked == atol(text)) {
    tell("REFUSED_THREAD");
    return EAGAIN;
  }
  return real(thread, how, body, given);
}
