/* Preloaded into a program: refuses the memory that it asks for the REFUSED-th time, counted from 1, and writes into the
   file ASKED how often it asked. */
#define _GNU_SOURCE
#include <dlfcn.h>
#include <stdbool.h>
#include <stdio.h>
#include <stdlib.h>

static unsigned long asked;

static bool is_refused(void) {
  const char *refused = getenv("REFUSED");
  return ++asked == (refused ? strtoul(refused, NULL, 10) : 0);
}

void *malloc(size_t size) {
  static void *(*next)(size_t);
  if (!next) next = (void *(*)(size_t))dlsym(RTLD_NEXT, "malloc");
  return is_refused() ? NULL : next(size);
}

void *realloc(void *old, size_t size) {
  static void *(*next)(void *, size_t);
  if (!next) next = (void *(*)(void *, size_t))dlsym(RTLD_NEXT, "realloc");
  return is_refused() ? NULL : next(old, size);
}

__attribute__((destructor)) static void tell(void) {
  unsigned long total = asked;
  const char *path = getenv("ASKED");
  FILE *file = path ? fopen(path, "w") : NULL;
  if (file) {
    fprintf(file, "%lu\n", total);
    fclose(file);
  }
}
