/* Loaded before the C library (LD_PRELOAD): refuses the allocation whose number REFUSED says, counted from 1, and as
 * many right behind it as MORE says, and writes how many there were to the file that ALLOCATIONS names when the process
 * ends. */
#define _GNU_SOURCE
#include <dlfcn.h>
#include <errno.h>
#include <fcntl.h>
#include <stddef.h>
#include <stdio.h>
#include <stdlib.h>
#include <unistd.h>

static unsigned long count, refused, more;

static int is_refused(void) {
  ++count;
  if (!refused || count < refused || count - refused > more) return 0;
  errno = ENOMEM;
  return 1;
}

#define NEXT(name) ((typeof(&name))dlsym(RTLD_NEXT, #name))

__attribute__((constructor)) static void begin(void) {
  const char *word = getenv("REFUSED");
  count = 0;
  refused = word ? strtoul(word, NULL, 10) : 0;
  word = getenv("MORE");
  more = word ? strtoul(word, NULL, 10) : 0;
}

__attribute__((destructor)) static void end(void) {
  const char *file = getenv("ALLOCATIONS");
  char text[32];
  int to = file ? open(file, O_WRONLY | O_CREAT | O_TRUNC, 0600) : -1;
  if (to < 0) return;
  int size = snprintf(text, sizeof text, "%lu\n", count);
  if (write(to, text, (size_t)size) != size) _exit(99);
  close(to);
}

void *malloc(size_t size) {
  static void *(*next)(size_t);
  if (!next) next = NEXT(malloc);
  return is_refused() ? NULL : next(size);
}

void *realloc(void *old, size_t size) {
  static void *(*next)(void *, size_t);
  if (!next) next = NEXT(realloc);
  return is_refused() ? NULL : next(old, size);
}

void *aligned_alloc(size_t align, size_t size) {
  static void *(*next)(size_t, size_t);
  if (!next) next = NEXT(aligned_alloc);
  return is_refused() ? NULL : next(align, size);
}

int posix_memalign(void **out, size_t align, size_t size) {
  static int (*next)(void **, size_t, size_t);
  if (!next) next = NEXT(posix_memalign);
  return is_refused() ? ENOMEM : next(out, align, size);
}
