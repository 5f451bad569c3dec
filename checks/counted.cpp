// Counts what a program does that it is loaded into by LD_PRELOAD. The file that COUNTED names has
// three numbers then, of eight bytes each: how many allocations there were, how many bytes they
// asked for, and how many threads were begun.
#include <atomic>
#include <cstddef>
#include <cstdlib>
#include <dlfcn.h>
#include <fcntl.h>
#include <pthread.h>
#include <sys/mman.h>
#include <unistd.h>

extern "C" void *__libc_malloc(size_t);
extern "C" void *__libc_calloc(size_t, size_t);
extern "C" void *__libc_realloc(void *, size_t);
extern "C" void *__libc_memalign(size_t, size_t);

struct Counts {
  std::atomic<long> allocations, bytes, threads;
};

// The file that COUNTED names, as numbers in memory: a program may end without a last word.
static Counts *counts() {
  static Counts own;
  const char *name = getenv("COUNTED");
  int file = name ? open(name, O_RDWR | O_CREAT | O_TRUNC, 0644) : -1;
  if (file < 0 || ftruncate(file, sizeof own) != 0) return &own;
  void *map = mmap(nullptr, sizeof own, PROT_READ | PROT_WRITE, MAP_SHARED, file, 0);
  close(file);
  return map == MAP_FAILED ? &own : static_cast<Counts *>(map);
}

static Counts *counted() {
  static Counts *all = counts();
  return all;
}

static void *noted(void *block, size_t size) {
  if (block) {
    counted()->allocations++;
    counted()->bytes += static_cast<long>(size);
  }
  return block;
}

extern "C" void *malloc(size_t size) { return noted(__libc_malloc(size), size); }

extern "C" void *calloc(size_t many, size_t size) {
  return noted(__libc_calloc(many, size), many * size);
}

extern "C" void *realloc(void *block, size_t size) {
  return noted(__libc_realloc(block, size), size);
}

extern "C" void *aligned_alloc(size_t alignment, size_t size) {
  return noted(__libc_memalign(alignment, size), size);
}

extern "C" int pthread_create(pthread_t *thread, const pthread_attr_t *attributes,
                              void *(*begin)(void *), void *word) {
  using Create = int (*)(pthread_t *, const pthread_attr_t *, void *(*)(void *), void *);
  static const Create create = reinterpret_cast<Create>(dlsym(RTLD_NEXT, "pthread_create"));
  counted()->threads++;
  return create(thread, attributes, begin, word);
}
