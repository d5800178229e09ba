// A library for LD_PRELOAD that makes one call for memory of a program fail, and counts all of them: see
// tests/no_memory. For 64-bit Linux with the GNU C library.
//
// MEMORY_TALLY names a file of a `struct tally`. What the C library asks for by itself, as for a thread, counts too,
// and may fail as well.
#define _GNU_SOURCE
#include <errno.h>
#include <fcntl.h>
#include <link.h>
#include <stdatomic.h>
#include <stdbool.h>
#include <stddef.h>
#include <stdint.h>
#include <stdlib.h>
#include <sys/mman.h>
#include <sys/syscall.h>
#include <unistd.h>

enum { MOST_WRITES = 16 };

// Numbers of 8 bytes, which tests/no_memory writes and reads.
struct tally {
  uint64_t refused;         // which call fails, from 1 on; none where it is 0
  _Atomic uint64_t failed;  // how many failed
  _Atomic uint64_t calls;
  _Atomic uint64_t own;     // those that the program itself made
  _Atomic uint64_t writes;  // its calls of pwrite
  _Atomic uint64_t own_at[MOST_WRITES];  // how many calls of its own it had made at each of the first of these
};

void *__libc_malloc(size_t len);
void *__libc_calloc(size_t count, size_t len);
void *__libc_realloc(void *old, size_t len);
void *__libc_memalign(size_t align, size_t len);

static struct tally *tally;
static uintptr_t program_from = UINTPTR_MAX, program_upto;

// The first object is the program.
static int find_program(struct dl_phdr_info *info, size_t size, void *none) {
  (void)size, (void)none;
  for (int i = 0; i < info->dlpi_phnum; i++) {
    const ElfW(Phdr) *part = &info->dlpi_phdr[i];
    if (part->p_type != PT_LOAD) continue;
    const uintptr_t from = info->dlpi_addr + part->p_vaddr;
    if (from < program_from) program_from = from;
    if (from + part->p_memsz > program_upto) program_upto = from + part->p_memsz;
  }
  return 1;
}

__attribute__((constructor)) static void begin(void) {
  const char *path = getenv("MEMORY_TALLY");
  const int file = path ? open(path, O_RDWR | O_CLOEXEC) : -1;
  if (file < 0) _exit(126);
  void *shared = mmap(NULL, sizeof *tally, PROT_READ | PROT_WRITE, MAP_SHARED, file, 0);
  if (shared == MAP_FAILED) _exit(126);
  close(file);
  dl_iterate_phdr(find_program, NULL);
  tally = shared;
}

// Counts a call that returns to this place, and says whether it fails.
static bool fails(const void *caller) {
  if (!tally) return false;
  if ((uintptr_t)caller >= program_from && (uintptr_t)caller < program_upto) tally->own++;
  if (atomic_fetch_add(&tally->calls, 1) + 1 != tally->refused) return false;
  tally->failed++;
  errno = ENOMEM;
  return true;
}

void *malloc(size_t len) { return fails(__builtin_return_address(0)) ? NULL : __libc_malloc(len); }

void *calloc(size_t count, size_t len) {
  return fails(__builtin_return_address(0)) ? NULL : __libc_calloc(count, len);
}

void *realloc(void *old, size_t len) { return fails(__builtin_return_address(0)) ? NULL : __libc_realloc(old, len); }

void *memalign(size_t align, size_t len) {
  return fails(__builtin_return_address(0)) ? NULL : __libc_memalign(align, len);
}

void *aligned_alloc(size_t align, size_t len) {
  return fails(__builtin_return_address(0)) ? NULL : __libc_memalign(align, len);
}

int posix_memalign(void **made, size_t align, size_t len) {
  if (fails(__builtin_return_address(0))) return ENOMEM;
  *made = __libc_memalign(align, len);
  return *made ? 0 : ENOMEM;
}

ssize_t pwrite(int file, const void *bytes, size_t len, off_t at) {
  const uint64_t before = tally ? atomic_fetch_add(&tally->writes, 1) : MOST_WRITES;
  if (before < MOST_WRITES) tally->own_at[before] = tally->own;
  return syscall(SYS_pwrite64, file, bytes, len, at);
}
