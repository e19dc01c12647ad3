/* Lets calls for memory fail, from the one on whose number stands in FAILING, counted from 1. With COUNTING set, the number of
   calls is told on standard error at the end. It is loaded in front of the C library by LD_PRELOAD. */
#define _GNU_SOURCE
#include <dlfcn.h>
#include <errno.h>
#include <stdio.h>
#include <stdlib.h>

static long count, failing = -1;

static int fails(void) {
  if (failing < 0) {
    const char *number = getenv("FAILING");
    failing = number ? atol(number) : 0;
  }
  count++;
  if (!failing || count < failing) return 0;
  errno = ENOMEM;
  return 1;
}

void *malloc(size_t size) {
  static void *(*real)(size_t);
  if (!real) real = dlsym(RTLD_NEXT, "malloc");
  return fails() ? NULL : real(size);
}

void *realloc(void *old, size_t size) {
  static void *(*real)(void *, size_t);
  if (!real) real = dlsym(RTLD_NEXT, "realloc");
  return fails() ? NULL : real(old, size);
}

__attribute__((destructor)) static void tell(void) {
  if (getenv("COUNTING")) fprintf(stderr, "%ld\n", count);
}
