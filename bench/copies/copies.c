// Counts the bytes that a program copies by memcpy, memmove and a realloc that moves, in a file of two numbers of 64 bits:
// those of copies of at least 64 bytes, and those of reallocs. To be preloaded: COPIES names the file.
#define _GNU_SOURCE
#include <dlfcn.h>
#include <fcntl.h>
#include <malloc.h>
#include <stdatomic.h>
#include <stdint.h>
#include <stdlib.h>
#include <string.h>
#include <sys/mman.h>
#include <unistd.h>

static _Atomic uint64_t spare[2];
static _Atomic uint64_t *counts = spare;
static void *(*next_move)(void *, const void *, size_t);
static void *(*next_realloc)(void *, size_t);

__attribute__((constructor)) static void begin(void) {
  next_move = dlsym(RTLD_NEXT, "memmove");
  next_realloc = dlsym(RTLD_NEXT, "realloc");
  const char *name = getenv("COPIES");
  int file = name ? open(name, O_RDWR | O_CREAT, 0600) : -1;
  if (file < 0 || ftruncate(file, sizeof spare)) return;
  void *shared = mmap(NULL, sizeof spare, PROT_READ | PROT_WRITE, MAP_SHARED, file, 0);
  if (shared != MAP_FAILED) counts = shared;
  close(file);
}

static void *move(void *to, const void *from, size_t size) {
  if (size >= 64) atomic_fetch_add_explicit(&counts[0], size, memory_order_relaxed);
  if (next_move) return next_move(to, from, size);
  for (size_t i = 0; i < size; i++) ((char *)to)[i] = ((const volatile char *)from)[i];
  return to;
}

void *memcpy(void *restrict to, const void *restrict from, size_t size) { return move(to, from, size); }
void *memmove(void *to, const void *from, size_t size) { return move(to, from, size); }

// A block that the system maps is moved by its pages, which copies nothing.
void *realloc(void *old, size_t size) {
  size_t held = old ? malloc_usable_size(old) : 0;
  int mapped = old && (((size_t *)old)[-1] & 2);
  void *new = next_realloc(old, size);
  if (new && old && new != old && !mapped) atomic_fetch_add_explicit(&counts[1], held < size ? held : size, memory_order_relaxed);
  return new;
}
