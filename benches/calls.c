/* benches/calls.c: a library that is loaded before the C library and writes down what a program asks of the system.
   The variable CALLS_FILE names the file. It gets a line for each call: its name, the number of the file, the path or the place,
   of a write the bytes in hexadecimal digits, and what was answered.

   Only calls that the program makes after it was loaded are written down. */
#define _GNU_SOURCE
#include <errno.h>
#include <fcntl.h>
#include <stdarg.h>
#include <stdio.h>
#include <stdlib.h>
#include <sys/stat.h>
#include <sys/syscall.h>
#include <unistd.h>

static int record = -1;

/* The record has a high number, so that the program's files have those that they would have without it. */
__attribute__((constructor)) static void begin(void) {
  const char *path = getenv("CALLS_FILE");
  if (!path) return;
  int file = syscall(SYS_openat, AT_FDCWD, path, O_WRONLY | O_CREAT | O_TRUNC | O_APPEND, 0666);
  record = syscall(SYS_fcntl, file, F_DUPFD_CLOEXEC, 500);
  syscall(SYS_close, file);
}

__attribute__((format(printf, 1, 2))) static void note(const char *form, ...) {
  char line[512];
  int was = errno;
  va_list rest;
  va_start(rest, form);
  int length = vsnprintf(line, sizeof line, form, rest);
  va_end(rest);
  if (record >= 0) syscall(SYS_write, record, line, length < (int)sizeof line ? length : (int)sizeof line);
  errno = was;
}

static void note_bytes(const unsigned char *bytes, size_t count) {
  for (size_t k = 0; k < count; k++) note("%02x", bytes[k]);
}

int open(const char *path, int flags, ...) {
  __builtin_va_list rest;
  __builtin_va_start(rest, flags);
  int mode = flags & O_CREAT ? __builtin_va_arg(rest, int) : 0;
  __builtin_va_end(rest);
  int answer = syscall(SYS_openat, AT_FDCWD, path, flags, mode);
  note("%s %d %s\n", flags & O_CREAT ? "make" : "open", answer, path);
  return answer;
}

int close(int file) {
  int answer = syscall(SYS_close, file);
  note("close %d\n", file);
  return answer;
}

ssize_t read(int file, void *into, size_t count) {
  ssize_t answer = syscall(SYS_read, file, into, count);
  note("read %d %zd\n", file, answer);
  return answer;
}

ssize_t pread(int file, void *into, size_t count, off_t place) {
  ssize_t answer = syscall(SYS_pread64, file, into, count, place);
  note("pread %d %ld %zd\n", file, (long)place, answer);
  return answer;
}

static ssize_t noted(const char *call, int file, long place, const void *from, size_t count, ssize_t answer) {
  note("%s %d %ld %zd ", call, file, place, answer);
  note_bytes(from, count);
  note("\n");
  return answer;
}

ssize_t write(int file, const void *from, size_t count) {
  return noted("write", file, -1, from, count, syscall(SYS_write, file, from, count));
}

ssize_t __write(int file, const void *from, size_t count) { return write(file, from, count); }

ssize_t pwrite(int file, const void *from, size_t count, off_t place) {
  return noted("pwrite", file, place, from, count, syscall(SYS_pwrite64, file, from, count, place));
}

/* A call of a file alone, and what it answered. */
#define OF_FILE(name, kind, number)             \
  int name(int file) {                          \
    int answer = syscall(number, file);         \
    note(kind " %d %d\n", file, answer);        \
    return answer;                              \
  }

OF_FILE(fsync, "sync", SYS_fsync)
OF_FILE(fdatasync, "fdatasync", SYS_fdatasync)

int flock(int file, int how) {
  int answer = syscall(SYS_flock, file, how);
  note("lock %d %d %d\n", file, how, answer);
  return answer;
}

int statx(int folder, const char *restrict path, int flags, unsigned mask, struct statx *restrict into) {
  int answer = syscall(SYS_statx, folder, path, flags, mask, into);
  note("length %d %d\n", folder, answer);
  return answer;
}

int ftruncate(int file, off_t length) {
  int answer = syscall(SYS_ftruncate, file, length);
  note("cut %d %d\n", file, answer);
  return answer;
}

int unlink(const char *path) {
  int answer = syscall(SYS_unlink, path);
  note("remove %d %s\n", answer, path);
  return answer;
}

int rename(const char *from, const char *to) {
  int answer = syscall(SYS_rename, from, to);
  note("rename %d %s\n", answer, from);
  return answer;
}
