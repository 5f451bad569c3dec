// Refuses one allocation of a program that it is loaded into by LD_PRELOAD: the one whose number,
// from 1 on, REFUSED says. How many there were stands in the file that COUNTED names, in eight
// bytes.
#include <atomic>
#include <cerrno>
#include <cstddef>
#include <cstdlib>
#include <fcntl.h>
#include <sys/mman.h>
#include <unistd.h>

extern "C" void *__libc_malloc(size_t);
extern "C" void *__libc_calloc(size_t, size_t);
extern "C" void *__libc_realloc(void *, size_t);
extern "C" void *__libc_memalign(size_t, size_t);

static long number(const char *name) {
  const char *said = getenv(name);
  return said ? atol(said) : 0;
}

// The file that COUNTED names, as one number in memory: a program may end without a last word.
static std::atomic<long> *counter() {
  static std::atomic<long> own{0};
  const char *name = getenv("COUNTED");
  int file = name ? open(name, O_RDWR | O_CREAT | O_TRUNC, 0644) : -1;
  if (file < 0 || ftruncate(file, sizeof own) != 0) return &own;
  void *map = mmap(nullptr, sizeof own, PROT_READ | PROT_WRITE, MAP_SHARED, file, 0);
  close(file);
  return map == MAP_FAILED ? &own : static_cast<std::atomic<long> *>(map);
}

static bool refused() {
  static const long one = number("REFUSED");
  static std::atomic<long> *count = counter();
  if (++*count != one) return false;
  errno = ENOMEM;
  return true;
}

extern "C" void *malloc(size_t size) {
  return refused() ? nullptr : __libc_malloc(size);
}

extern "C" void *calloc(size_t many, size_t size) {
  return refused() ? nullptr : __libc_calloc(many, size);
}

extern "C" void *realloc(void *block, size_t size) {
  return refused() ? nullptr : __libc_realloc(block, size);
}

extern "C" void *aligned_alloc(size_t alignment, size_t size) {
  return refused() ? nullptr : __libc_memalign(alignment, size);
}

extern "C" int posix_memalign(void **block, size_t alignment, size_t size) {
  if (refused()) return ENOMEM;
  *block = __libc_memalign(alignment, size);
  return *block ? 0 : ENOMEM;
}
