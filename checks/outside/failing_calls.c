/* Lets one call of the host fail, and makes those that read and write short. FAILING says of which kind the call is, its number among these
   from 1, and how it ends: by a number of errno, or by taking nothing where that is 0. The file that TOLD names is made when it fails. PIECE is how
   many bytes each call reads or writes at most. The file that LISTING names takes a line for each call, as strace writes it. It is loaded in front of the C library by LD_PRELOAD. */
#define _GNU_SOURCE
#include <dlfcn.h>
#include <errno.h>
#include <fcntl.h>
#include <signal.h>
#include <stdarg.h>
#include <stdio.h>
#include <stdlib.h>
#include <string.h>
#include <unistd.h>

typedef int (*open_call)(const char *, int, ...);

/* Whether this is the call that is to fail, the so manieth of its kind. */
static int fails(const char *kind, long number) {
  char of[16];
  long at;
  int error;
  const char *failing = getenv("FAILING");
  if (!failing || sscanf(failing, "%15s %ld %d", of, &at, &error) != 3 || at != number || strcmp(of, kind)) return 0;
  ((open_call)dlsym(RTLD_NEXT, "open64"))(getenv("TOLD"), O_WRONLY | O_CREAT, 0600);
  if (error == EPIPE) raise(SIGPIPE);
  errno = error;
  return 1;
}

/* Lists a call, and hands its answer on. */
static long listed(const char *kind, const char *name, int file, long answer) {
  static FILE *list;
  int error = errno;
  if (!list && getenv("LISTING")) list = fopen(getenv("LISTING"), "w");
  if (list && name) fprintf(list, "%s(AT_FDCWD, \"%s\") = %ld\n", kind, name, answer);
  if (list && !name) fprintf(list, "%s(%d) = %ld\n", kind, file, answer);
  errno = error;
  return answer;
}

/* What a call that fails answers. */
static int answer(void) { return errno ? -1 : 0; }

static size_t at_most(size_t size) {
  const char *piece = getenv("PIECE");
  size_t most = piece ? (size_t)atol(piece) : size;
  return size < most ? size : most;
}

int open64(const char *name, int flags, ...) {
  static long count;
  va_list rest;
  va_start(rest, flags);
  mode_t mode = flags & O_CREAT ? va_arg(rest, mode_t) : 0;
  va_end(rest);
  if (fails("openat", ++count)) return answer();
  return listed("openat", name, 0, ((open_call)dlsym(RTLD_NEXT, "open64"))(name, flags, mode));
}

ssize_t read(int file, void *bytes, size_t size) {
  static long count;
  if (fails("read", ++count)) return answer();
  return listed("read", NULL, file, ((ssize_t(*)(int, void *, size_t))dlsym(RTLD_NEXT, "read"))(file, bytes, at_most(size)));
}

ssize_t write(int file, const void *bytes, size_t size) {
  static long count;
  if (fails("write", ++count)) return answer();
  return listed("write", NULL, file, ((ssize_t(*)(int, const void *, size_t))dlsym(RTLD_NEXT, "write"))(file, bytes, at_most(size)));
}

int close(int file) {
  static long count;
  int done = ((int (*)(int))dlsym(RTLD_NEXT, "close"))(file);
  return fails("close", ++count) ? answer() : listed("close", NULL, file, done);
}
