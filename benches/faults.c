/* benches/faults.c: a library that is loaded before the C library and lets one kind of call of a program go wrong.
   The scripts of benches/ compile it and name by the environment what it does:

   FAULT_CALL  memory, open, read, write, pread, pwrite, fsync, lseek, statx, flock, thread or any (each of these but
               memory and thread)
   FAULT_AT    the number of the call, from 1; 0 for none
   FAULT_ON    where it is set, each later call goes wrong as well
   FAULT_DIE   the number of the call before which the program is killed
   FAULT_KIND  the number of an error, or short (one byte), zero (answers 0 and does nothing), stop (the program stops
               itself before the call), kill (it is killed before the call)
   FAULT_MARK  a file that is made when the call came, and that holds the name of the call

   Only calls that the program makes after it was loaded count. */
#define _GNU_SOURCE
#include <dlfcn.h>
#include <errno.h>
#include <fcntl.h>
#include <pthread.h>
#include <signal.h>
#include <stdatomic.h>
#include <stdlib.h>
#include <string.h>
#include <sys/file.h>
#include <sys/stat.h>
#include <sys/syscall.h>
#include <unistd.h>

extern void *__libc_malloc(size_t);
extern void *__libc_calloc(size_t, size_t);
extern void *__libc_realloc(void *, size_t);
extern void *__libc_memalign(size_t, size_t);

enum kind { NONE, ERROR, SHORT, ZERO };

static atomic_ulong calls;
static unsigned long at, die;
static int on, error, kill_with;
static enum kind how;
static const char *wanted, *mark;

__attribute__((constructor)) static void begin(void) {
  const char *text = getenv("FAULT_AT"), *kind = getenv("FAULT_KIND");
  if (!text || !kind) return;
  mark = getenv("FAULT_MARK");
  on = getenv("FAULT_ON") != NULL;
  wanted = getenv("FAULT_CALL");
  how = !strcmp(kind, "short") ? SHORT : !strcmp(kind, "zero") ? ZERO : ERROR;
  kill_with = !strcmp(kind, "stop") ? SIGSTOP : !strcmp(kind, "kill") ? SIGKILL : 0;
  error = atoi(kind);
  at = strtoul(text, NULL, 10);
  if (getenv("FAULT_DIE")) die = strtoul(getenv("FAULT_DIE"), NULL, 10);
}

/* Whether this call goes wrong, and how. */
static enum kind fault(const char *call) {
  if (!wanted || at == 0) return NONE;
  if (strcmp(wanted, call) && (strcmp(wanted, "any") || !strcmp(call, "memory") || !strcmp(call, "thread"))) return NONE;
  unsigned long number = atomic_fetch_add(&calls, 1) + 1;
  if (number == die) syscall(SYS_kill, syscall(SYS_getpid), SIGKILL);
  if (on ? number < at : number != at) return NONE;
  if (number == at && mark) {
    long file = syscall(SYS_openat, AT_FDCWD, mark, O_WRONLY | O_CREAT | O_CLOEXEC, 0666);
    syscall(SYS_write, file, call, strlen(call));
    syscall(SYS_close, file);
  }
  if (kill_with) {
    syscall(SYS_kill, syscall(SYS_getpid), kill_with);
    return NONE;
  }
  return how;
}

/* Answers with a fault where there is one. A short transfer is one of a single byte. */
#define ANSWER(call, kind)                \
  enum kind kind = fault(call);           \
  if (kind == ERROR) {                    \
    errno = error;                        \
    return -1;                            \
  }                                       \
  if (kind == ZERO) return 0

#define SOME(call, count)                 \
  ANSWER(call, kind);                     \
  if (kind == SHORT && count > 1) count = 1

static void *refused(void) {
  errno = ENOMEM;
  return NULL;
}

void *malloc(size_t size) { return fault("memory") ? refused() : __libc_malloc(size); }
void *calloc(size_t count, size_t size) { return fault("memory") ? refused() : __libc_calloc(count, size); }
void *realloc(void *old, size_t size) { return fault("memory") ? refused() : __libc_realloc(old, size); }
void *memalign(size_t align, size_t size) { return fault("memory") ? refused() : __libc_memalign(align, size); }
void *aligned_alloc(size_t align, size_t size) { return fault("memory") ? refused() : __libc_memalign(align, size); }

int posix_memalign(void **place, size_t align, size_t size) {
  void *got = fault("memory") ? NULL : __libc_memalign(align, size);
  if (!got) return ENOMEM;
  *place = got;
  return 0;
}

ssize_t read(int file, void *into, size_t count) {
  SOME("read", count);
  return syscall(SYS_read, file, into, count);
}

ssize_t write(int file, const void *from, size_t count) {
  SOME("write", count);
  return syscall(SYS_write, file, from, count);
}

ssize_t __write(int file, const void *from, size_t count) { return write(file, from, count); }

ssize_t pread(int file, void *into, size_t count, off_t place) {
  SOME("pread", count);
  return syscall(SYS_pread64, file, into, count, place);
}

ssize_t pwrite(int file, const void *from, size_t count, off_t place) {
  SOME("pwrite", count);
  return syscall(SYS_pwrite64, file, from, count, place);
}

int fsync(int file) {
  ANSWER("fsync", kind);
  return syscall(SYS_fsync, file);
}

int fdatasync(int file) {
  ANSWER("fsync", kind);
  return syscall(SYS_fdatasync, file);
}

int open(const char *path, int flags, ...) {
  __builtin_va_list rest;
  __builtin_va_start(rest, flags);
  int mode = flags & O_CREAT ? __builtin_va_arg(rest, int) : 0;
  __builtin_va_end(rest);
  ANSWER("open", kind);
  return syscall(SYS_openat, AT_FDCWD, path, flags, mode);
}

off_t lseek(int file, off_t place, int from) {
  ANSWER("lseek", kind);
  return syscall(SYS_lseek, file, place, from);
}

int statx(int folder, const char *restrict path, int flags, unsigned mask, struct statx *restrict into) {
  ANSWER("statx", kind);
  return syscall(SYS_statx, folder, path, flags, mask, into);
}

int flock(int file, int what) {
  ANSWER("flock", kind);
  return syscall(SYS_flock, file, what);
}

int pthread_create(pthread_t *thread, const pthread_attr_t *how_made, void *(*body)(void *), void *given) {
  static int (*real)(pthread_t *, const pthread_attr_t *, void *(*)(void *), void *);
  if (!real) real = dlsym(RTLD_NEXT, "pthread_create");
  if (fault("thread") == ERROR) return error;
  return real(thread, how_made, body, given);
}
