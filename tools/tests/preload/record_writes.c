// A library for LD_PRELOAD that records each write and each data sync of a program, in their order, and what it prints:
// see tests/crash_images. For 64-bit Linux with the GNU C library.
//
// RECORDING names a file, to which a call is put as it begins, and again as it ends. Calls of several threads stand in
// the order in which they did so.
#define _GNU_SOURCE
#include <errno.h>
#include <fcntl.h>
#include <limits.h>
#include <pthread.h>
#include <stdint.h>
#include <stdio.h>
#include <stdlib.h>
#include <sys/syscall.h>
#include <sys/uio.h>
#include <unistd.h>

// As tests/disk_history.py has them.
enum kind { WRITE_BEGINS, WRITE_ENDS, SYNC_BEGINS, SYNC_ENDS, PRINTS };

// Behind these numbers stand the path and the bytes.
struct step {
  uint32_t kind;
  uint32_t path_len;
  uint64_t at;     // the place in the file; of what is printed the number of the open file
  uint64_t len;    // of the bytes, which no call has that ends
  int64_t result;  // of a call that ends
};

static int recording = -1;
static pthread_mutex_t lock = PTHREAD_MUTEX_INITIALIZER;

__attribute__((constructor)) static void begin(void) {
  const char *path = getenv("RECORDING");
  recording = path ? open(path, O_WRONLY | O_APPEND | O_CLOEXEC) : -1;
  if (recording < 0) _exit(126);
}

// A step that can't be put ends the program: no recording lacks one.
static void put(enum kind kind, int file, uint64_t at, const void *bytes, size_t len, int64_t result) {
  const int error = errno;
  char link[32], path[PATH_MAX];
  snprintf(link, sizeof link, "/proc/self/fd/%d", file);
  const ssize_t path_len = readlink(link, path, sizeof path);
  if (path_len < 0) _exit(126);
  const struct step step = {kind, path_len, at, len, result};
  const struct iovec parts[] = {{(void *)&step, sizeof step}, {path, path_len}, {(void *)bytes, len}};
  pthread_mutex_lock(&lock);
  const ssize_t written = writev(recording, parts, 3);
  pthread_mutex_unlock(&lock);
  if (written != (ssize_t)(sizeof step + path_len + len)) _exit(126);
  errno = error;
}

ssize_t pwrite(int file, const void *bytes, size_t len, off_t at) {
  put(WRITE_BEGINS, file, at, bytes, len, 0);
  const ssize_t written = syscall(SYS_pwrite64, file, bytes, len, at);
  put(WRITE_ENDS, file, at, NULL, 0, written);
  return written;
}

// In memory a sync takes no time. On a disk it does, and other threads go on meanwhile.
static int sync_by(long call, int file) {
  put(SYNC_BEGINS, file, 0, NULL, 0, 0);
  usleep(100);
  const int result = syscall(call, file);
  put(SYNC_ENDS, file, 0, NULL, 0, result);
  return result;
}

int fdatasync(int file) { return sync_by(SYS_fdatasync, file); }

int fsync(int file) { return sync_by(SYS_fsync, file); }

// Writes at no place of their own go to no file of a cone, which tests/crash_images sees to.
ssize_t write(int file, const void *bytes, size_t len) {
  put(PRINTS, file, file, bytes, len, 0);
  return syscall(SYS_write, file, bytes, len);
}

ssize_t __write(int file, const void *bytes, size_t len) { return write(file, bytes, len); }
