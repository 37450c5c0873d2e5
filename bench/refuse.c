/* Refuses one allocation, or one thread, of a program that is started with this before the C library. REFUSE is the allocation's
   number, and REFUSE_THREAD that of the thread, counted from 1. Where it is reached, the file REFUSED is made. */
#define _GNU_SOURCE
#include <dlfcn.h>
#include <errno.h>
#include <fcntl.h>
#include <pthread.h>
#include <stdatomic.h>
#include <stdlib.h>
#include <unistd.h>

static atomic_ulong asked;
static atomic_ulong started;

static int is_refused(const char *which, atomic_ulong *count) {
  const char *number = getenv(which);
  if (!number || atomic_fetch_add(count, 1) + 1 != strtoul(number, NULL, 10))
    return 0;
  const char *name = getenv("REFUSED");
  if (name)
    close(open(name, O_CREAT | O_WRONLY, 0600));
  return 1;
}

void *malloc(size_t size) {
  static void *(*next)(size_t);
  if (!next)
    next = (void *(*)(size_t))dlsym(RTLD_NEXT, "malloc");
  return is_refused("REFUSE", &asked) ? NULL : next(size);
}

void *realloc(void *block, size_t size) {
  static void *(*next)(void *, size_t);
  if (!next)
    next = (void *(*)(void *, size_t))dlsym(RTLD_NEXT, "realloc");
  return is_refused("REFUSE", &asked) ? NULL : next(block, size);
}

typedef int Create(pthread_t *, const pthread_attr_t *, void *(*)(void *), void *);

int pthread_create(pthread_t *thread, const pthread_attr_t *how, void *(*run)(void *), void *given) {
  static Create *next;
  if (!next)
    next = (Create *)dlsym(RTLD_NEXT, "pthread_create");
  return is_refused("REFUSE_THREAD", &started) ? EAGAIN : next(thread, how, run, given);
}
