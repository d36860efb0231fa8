// Counts how often a program takes memory, and tells that and the most memory that was resident, as the program ends: two lines on
// standard error. To be preloaded.
#define _GNU_SOURCE
#include <dlfcn.h>
#include <stdint.h>
#include <stdio.h>
#include <stdlib.h>
#include <string.h>

static uint64_t taken;
static void *(*next_malloc)(size_t);
static void *(*next_realloc)(void *, size_t);
static void *(*next_aligned)(size_t, size_t);

__attribute__((constructor)) static void begin(void) {
  next_malloc = dlsym(RTLD_NEXT, "malloc");
  next_realloc = dlsym(RTLD_NEXT, "realloc");
  next_aligned = dlsym(RTLD_NEXT, "aligned_alloc");
}

__attribute__((destructor)) static void end(void) {
  uint64_t until_now = taken;
  char line[256];
  FILE *status = fopen("/proc/self/status", "r");
  if (!status) return;
  while (fgets(line, sizeof line, status))
    if (!strncmp(line, "VmHWM:", 6)) fprintf(stderr, "resident at most: %llu\n", strtoull(line + 6, NULL, 10));
  fclose(status);
  fprintf(stderr, "memory taken: %llu\n", (unsigned long long)until_now);
}

void *malloc(size_t size) {
  taken++;
  if (!next_malloc) next_malloc = dlsym(RTLD_NEXT, "malloc");
  return next_malloc(size);
}

void *realloc(void *old, size_t size) {
  taken++;
  return next_realloc(old, size);
}

void *aligned_alloc(size_t alignment, size_t size) {
  taken++;
  return next_aligned(alignment, size);
}
