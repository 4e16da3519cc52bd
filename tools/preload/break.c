/* Preloaded into a program: a read or write passes three bytes at most. On the file descriptor BROKEN the first PASSED
   calls do, and the FAILING calls after them fail. */
#define _GNU_SOURCE
#include <dlfcn.h>
#include <errno.h>
#include <stdbool.h>
#include <stdlib.h>
#include <unistd.h>

enum { MOST = 3 };

static unsigned long number(const char *name) {
  const char *text = getenv(name);
  return text ? strtoul(text, NULL, 10) : 0;
}

static bool is_broken(int fd) {
  static unsigned long calls;
  if ((unsigned long)fd != number("BROKEN")) return false;
  unsigned long call = calls++;
  return call >= number("PASSED") && call - number("PASSED") < number("FAILING");
}

ssize_t read(int fd, void *buffer, size_t size) {
  static ssize_t (*next)(int, void *, size_t);
  if (!next) next = (ssize_t(*)(int, void *, size_t))dlsym(RTLD_NEXT, "read");
  if (is_broken(fd)) return errno = EIO, -1;
  return next(fd, buffer, size < MOST ? size : MOST);
}

ssize_t write(int fd, const void *buffer, size_t size) {
  static ssize_t (*next)(int, const void *, size_t);
  if (!next) next = (ssize_t(*)(int, const void *, size_t))dlsym(RTLD_NEXT, "write");
  if (is_broken(fd)) return errno = EPIPE, -1;
  return next(fd, buffer, size < MOST ? size : MOST);
}
