// Makes one call of a program fail: it stands before the C library, by LD_PRELOAD, and of one kind of call that the program itself makes, the
// Nth fails. REFUSED_KIND names the kind, REFUSED_NUMBER is N, and with REFUSED_PIECE a read or a write moves so many bytes at most. What fails
// is told on standard error. What the C library calls for itself is left alone.
#define _GNU_SOURCE
#include <dlfcn.h>
#include <errno.h>
#include <fcntl.h>
#include <link.h>
#include <pthread.h>
#include <stdarg.h>
#include <stdlib.h>
#include <string.h>
#include <sys/syscall.h>
#include <unistd.h>

#define REFUSED(of) is_refused(of, __builtin_return_address(0))
static const char MARK[] = "[refused]";

extern void *__libc_malloc(size_t);
extern void *__libc_realloc(void *, size_t);
static int (*create)(pthread_t *, const pthread_attr_t *, void *(*)(void *), void *);
static char *from, *to;
static const char *kind;
static long wanted, count;
static size_t piece;

static int first(struct dl_phdr_info *it, size_t size, void *data) {
  for (int k = 0; k < it->dlpi_phnum; k++)
    if (it->dlpi_phdr[k].p_type == PT_LOAD && (it->dlpi_phdr[k].p_flags & PF_X)) {
      from = (char *)it->dlpi_addr + it->dlpi_phdr[k].p_vaddr;
      to = from + it->dlpi_phdr[k].p_memsz;
    }
  return 1;
}

static size_t number(const char *name) {
  const char *text = getenv(name);
  return text ? strtoul(text, 0, 10) : 0;
}

__attribute__((constructor)) static void begin(void) {
  create = dlsym(RTLD_NEXT, "pthread_create");
  wanted = number("REFUSED_NUMBER");
  piece = number("REFUSED_PIECE");
  kind = getenv("REFUSED_KIND");
  dl_iterate_phdr(first, 0);
}

static int is_refused(const char *of, char *caller) {
  if (!kind || strcmp(kind, of) || caller < from || caller >= to) return 0;
  if (__atomic_add_fetch(&count, 1, __ATOMIC_SEQ_CST) != wanted) return 0;
  return syscall(SYS_write, 2, MARK, sizeof MARK - 1) > 0;
}

static size_t most(size_t n) { return piece && piece < n ? piece : n; }

static int fails(int error) {
  errno = error;
  return -1;
}

void *malloc(size_t n) { return REFUSED("allocation") ? 0 : __libc_malloc(n); }
void *realloc(void *p, size_t n) { return REFUSED("allocation") ? 0 : __libc_realloc(p, n); }

int pthread_create(pthread_t *it, const pthread_attr_t *how, void *(*runs)(void *), void *with) {
  return REFUSED("thread") ? EAGAIN : create(it, how, runs, with);
}

int getentropy(void *to, size_t n) {
  if (REFUSED("random")) return fails(ENOSYS);
  return syscall(SYS_getrandom, to, n, 0) == (long)n ? 0 : fails(EIO);
}

int open(const char *name, int how, ...) {
  va_list more;
  va_start(more, how);
  int mode = how & O_CREAT ? va_arg(more, int) : 0;
  va_end(more);
  return REFUSED("open") ? fails(EMFILE) : syscall(SYS_openat, AT_FDCWD, name, how, mode);
}

ssize_t read(int of, void *to, size_t n) { return REFUSED("read") ? fails(EIO) : syscall(SYS_read, of, to, most(n)); }

ssize_t write(int of, const void *what, size_t n) {
  return of == 1 && REFUSED("write") ? fails(ENOSPC) : syscall(SYS_write, of, what, most(n));
}
