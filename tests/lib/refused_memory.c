/* Stands in front of the C library's allocator (LD_PRELOAD) and refuses one allocation: tests/lib/refused_memory.py. */
#define _GNU_SOURCE
#include <dlfcn.h>
#include <errno.h>
#include <fcntl.h>
#include <stdatomic.h>
#include <stddef.h>
#include <stdlib.h>
#include <string.h>
#include <sys/mman.h>
#include <unistd.h>

/* In a file that the runner maps too: how many allocations there were, and the number of the one to refuse, from 1. */
struct shared { _Atomic unsigned long count; unsigned long refused; };
static struct shared *shared;

static void *(*real_malloc)(size_t);
static void *(*real_calloc)(size_t, size_t);
static void *(*real_realloc)(void *, size_t);
static void *(*real_aligned_alloc)(size_t, size_t);
static int (*real_posix_memalign)(void **, size_t, size_t);

/* What is asked for while the real functions are being looked up. */
static _Alignas(16) char early[65536];
static size_t early_used;

static void *take_early(size_t size) {
  size_t at = early_used;
  early_used += (size + 15) & ~(size_t)15;
  return early_used <= sizeof early ? early + at : NULL;
}

static int is_early(const void *p) { return (const char *)p >= early && (const char *)p < early + sizeof early; }

__attribute__((constructor)) static void begin(void) {
  real_calloc = dlsym(RTLD_NEXT, "calloc");
  real_malloc = dlsym(RTLD_NEXT, "malloc");
  real_realloc = dlsym(RTLD_NEXT, "realloc");
  real_aligned_alloc = dlsym(RTLD_NEXT, "aligned_alloc");
  real_posix_memalign = dlsym(RTLD_NEXT, "posix_memalign");
  const char *path = getenv("REFUSED_MEMORY");
  int file = path ? open(path, O_RDWR | O_CLOEXEC) : -1;
  if (file >= 0) {
    void *at = mmap(NULL, sizeof *shared, PROT_READ | PROT_WRITE, MAP_SHARED, file, 0);
    close(file);
    if (at != MAP_FAILED) shared = at;
  }
}

static int refuses(void) {
  if (!shared) return 0;
  unsigned long number = atomic_fetch_add(&shared->count, 1) + 1;
  if (number != shared->refused) return 0;
  errno = ENOMEM;
  return 1;
}

void *malloc(size_t size) {
  if (!real_malloc) return take_early(size);
  return refuses() ? NULL : real_malloc(size);
}

void *calloc(size_t count, size_t size) {
  if (!real_calloc) return take_early(count * size);
  return refuses() ? NULL : real_calloc(count, size);
}

void *realloc(void *old, size_t size) {
  if (is_early(old)) {
    void *fresh = malloc(size);
    size_t most = (size_t)(early + sizeof early - (char *)old);
    if (fresh) memcpy(fresh, old, size < most ? size : most);
    return fresh;
  }
  if (!real_realloc) return NULL;
  return refuses() ? NULL : real_realloc(old, size);
}

void *aligned_alloc(size_t alignment, size_t size) {
  if (!real_aligned_alloc) return NULL;
  return refuses() ? NULL : real_aligned_alloc(alignment, size);
}

int posix_memalign(void **to, size_t alignment, size_t size) {
  if (!real_posix_memalign) return ENOMEM;
  return refuses() ? ENOMEM : real_posix_memalign(to, alignment, size);
}

void free(void *p) {
  static void (*real_free)(void *);
  if (!p || is_early(p)) return;
  if (!real_free) real_free = dlsym(RTLD_NEXT, "free");
  real_free(p);
}
