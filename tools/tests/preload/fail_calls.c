// A library for LD_PRELOAD that makes calls of a program to the outside fail, and counts them: see tests/hostile.
// For 64-bit Linux with the GNU C library.
//
// OUTSIDE_TALLY names a file of a `struct tally`.
#define _GNU_SOURCE
#include <dlfcn.h>
#include <errno.h>
#include <fcntl.h>
#include <pthread.h>
#include <stdarg.h>
#include <stdbool.h>
#include <stdint.h>
#include <stdio.h>
#include <stdlib.h>
#include <string.h>
#include <sys/file.h>
#include <sys/mman.h>
#include <sys/stat.h>
#include <sys/syscall.h>
#include <unistd.h>

enum { MOST_FILES = 1024, MOST_CONES = 16 };
enum kind { OPEN, MKDIR, STAT_PATH, STAT_FILE, READ, PREAD, PWRITE, SYNC, WRITE, THREAD, LOCK, KINDS };

// Numbers of 8 bytes, which tests/outside.py writes and reads. The first seven say what is to be done, the others what
// came of it.
struct tally {
  uint64_t kind;         // of the call that fails
  uint64_t number;       // which call of this kind does, from 1 on; none where it is 0
  uint64_t error;        // what it answers
  uint64_t limited;      // whether the files may get longer by `room` bytes alone
  uint64_t room;
  uint64_t halved;       // whether reads and writes move half of their bytes
  uint64_t interrupted;  // whether each other one of them, and of syncs and locks, is broken off by a signal
  uint64_t failed;       // calls that failed, also by themselves
  uint64_t cut;          // writes of which the room took a part
  uint64_t grown;        // by how many bytes files got longer
  uint64_t cones;        // a bit for each cone of which a file failed
  uint64_t traces;       // and for each trace
  uint64_t calls[KINDS];
  uint64_t packets[MOST_CONES];  // whose gate was opened, with a sync behind it
};

// An open file, by its name.
struct known {
  bool is_cone, is_journal, is_trace;
  unsigned number;
  uint64_t gates;  // opened since the last sync
};

static struct tally *tally;
static pthread_mutex_t turn = PTHREAD_MUTEX_INITIALIZER;
static struct known files[MOST_FILES], unknown, no_file;

__attribute__((constructor)) static void begin(void) {
  const char *path = getenv("OUTSIDE_TALLY");
  const int file = path ? (int)syscall(SYS_openat, AT_FDCWD, path, O_RDWR | O_CLOEXEC) : -1;
  if (file < 0) _exit(126);
  void *shared = mmap(NULL, sizeof *tally, PROT_READ | PROT_WRITE, MAP_SHARED, file, 0);
  if (shared == MAP_FAILED) _exit(126);
  close(file);
  tally = shared;
}

static struct known *known(int file) { return file >= 0 && file < MOST_FILES ? &files[file] : &no_file; }

static struct known named(const char *path) {
  const char *slash = strrchr(path, '/');
  const char *name = slash ? slash + 1 : path;
  struct known of = {0};
  char ending[16] = "";
  if (sscanf(name, "cone-%3u%15s", &of.number, ending) == 2) {
    of.is_cone = true;
    of.is_journal = strcmp(ending, ".journal") == 0;
  } else if (sscanf(name, "trace%u", &of.number) == 1) {
    of.is_trace = true;
  }
  return of;
}

static void note(const struct known *of) {
  tally->failed++;
  if (of->is_cone) tally->cones |= UINT64_C(1) << of->number % 64;
  if (of->is_trace) tally->traces |= UINT64_C(1) << of->number % 64;
}

static bool may_be_interrupted(enum kind kind) {
  return kind == READ || kind == PREAD || kind == PWRITE || kind == SYNC || kind == WRITE || kind == LOCK;
}

// Counts a call, and gives the error with which it is to fail, or 0.
static int error_of(enum kind kind, const struct known *of) {
  if (!tally) return 0;
  int error = 0;
  pthread_mutex_lock(&turn);
  const uint64_t number = ++tally->calls[kind];
  if (kind == tally->kind && number == tally->number) {
    error = (int)tally->error;
    note(of);
  } else if (tally->interrupted && may_be_interrupted(kind) && number % 2 == 1) {
    error = EINTR;
  }
  pthread_mutex_unlock(&turn);
  return error;
}

static bool fails(enum kind kind, const struct known *of) {
  const int error = error_of(kind, of);
  if (error) errno = error;
  return error != 0;
}

static size_t part(size_t len) { return tally && tally->halved ? len - len / 2 : len; }

// What a call answered, which is noted where it failed by itself.
static long noted(const struct known *of, long answer) {
  if (!tally || answer >= 0) return answer;
  const int error = errno;
  pthread_mutex_lock(&turn);
  note(of);
  pthread_mutex_unlock(&turn);
  errno = error;
  return answer;
}

// How many bytes of a write there is room for. Those by which the file gets longer are counted.
static size_t fitting(int file, size_t len, off_t at) {
  struct stat now;
  if (fstat(file, &now) != 0) return len;
  const uint64_t size = (uint64_t)now.st_size, end = (uint64_t)at + len;
  const uint64_t more = end > size ? end - size : 0;
  const uint64_t left = tally->limited ? tally->room - tally->grown : more;
  if (more <= left) {
    tally->grown += more;
    return len;
  }
  if (more - left >= len) return 0;
  tally->cut++;
  tally->grown += left;
  return len - (more - left);
}

int open(const char *path, int flags, ...) {
  va_list rest;
  va_start(rest, flags);
  const mode_t mode = flags & O_CREAT ? va_arg(rest, mode_t) : 0;
  va_end(rest);
  const struct known of = named(path);
  // Other files than traces and those of cones aren't counted.
  if ((of.is_cone || of.is_trace) && fails(OPEN, &unknown)) return -1;
  const int file = (int)syscall(SYS_openat, AT_FDCWD, path, flags, mode);
  *known(file) = of;
  return file;
}

int flock(int file, int how) { return fails(LOCK, &unknown) ? -1 : (int)syscall(SYS_flock, file, how); }

int mkdir(const char *path, mode_t mode) {
  return fails(MKDIR, &unknown) ? -1 : (int)syscall(SYS_mkdir, path, mode);
}

int statx(int folder, const char *path, int flags, unsigned mask, struct statx *into) {
  const bool of_file = !path || !*path;
  if (fails(of_file ? STAT_FILE : STAT_PATH, of_file ? known(folder) : &unknown)) return -1;
  return (int)syscall(SYS_statx, folder, path, flags, mask, into);
}

ssize_t read(int file, void *into, size_t len) {
  const struct known *of = known(file);
  return fails(READ, of) ? -1 : noted(of, syscall(SYS_read, file, into, part(len)));
}

ssize_t pread(int file, void *into, size_t len, off_t at) {
  const struct known *of = known(file);
  return fails(PREAD, of) ? -1 : noted(of, syscall(SYS_pread64, file, into, part(len), at));
}

ssize_t write(int file, const void *bytes, size_t len) {
  const struct known *of = known(file);
  return fails(WRITE, of) ? -1 : noted(of, syscall(SYS_write, file, bytes, part(len)));
}

static ssize_t write_fitting(int file, const void *bytes, size_t len, off_t at, struct known *of) {
  const size_t some = fitting(file, part(len), at);
  if (some == 0 && len > 0) {
    errno = ENOSPC;
    return -1;
  }
  const ssize_t done = syscall(SYS_pwrite64, file, bytes, some, at);
  if (done == 1 && len == 1 && of->is_journal && *(const char *)bytes == 1) of->gates++;
  return done;
}

ssize_t pwrite(int file, const void *bytes, size_t len, off_t at) {
  struct known *of = known(file);
  if (fails(PWRITE, of)) return -1;
  if (!tally) return syscall(SYS_pwrite64, file, bytes, len, at);
  pthread_mutex_lock(&turn);
  const ssize_t done = write_fitting(file, bytes, len, at, of);
  pthread_mutex_unlock(&turn);
  return noted(of, done);
}

int fdatasync(int file) {
  struct known *of = known(file);
  if (fails(SYNC, of)) return -1;
  const int done = (int)noted(of, syscall(SYS_fdatasync, file));
  if (!tally || done != 0) return done;
  pthread_mutex_lock(&turn);
  if (of->is_journal) tally->packets[of->number % MOST_CONES] += of->gates;
  of->gates = 0;
  pthread_mutex_unlock(&turn);
  return done;
}

int pthread_create(pthread_t *thread, const pthread_attr_t *how, void *(*begin_at)(void *), void *given) {
  const int error = error_of(THREAD, &unknown);
  if (error) return error;
  int (*real)(pthread_t *, const pthread_attr_t *, void *(*)(void *), void *) = dlsym(RTLD_NEXT, "pthread_create");
  return real(thread, how, begin_at, given);
}
