/* Loaded into a program by LD_PRELOAD, this fails one of its calls, or cuts all its writes into pieces
   (tests/fuzz/refuse.py). REFUSE_KIND is alloc, open, read, write, short-read, short-write,
   interrupted-read or interrupted-write, REFUSE_CALL the number of the call, from 1, REFUSE_PIECE the most
   bytes that a write moves, REFUSE_TOLD a descriptor to which a byte goes when the call came.

   Calls on the disk are those on clearview.keep and on its folder, the opening of both among them. Of these
   one fails with the kind disk; with torn-disk too, where it writes half of its bytes; with short-disk one
   moves one byte, with interrupted-disk one is interrupted. With killed-disk the process ends before one, and
   with lost-disk also that is lost which was written since the last sync: all but the writes whose bits are
   set in REFUSE_SURVIVES, the first one's being the lowest. The length stays. */
#define _GNU_SOURCE
#include <errno.h>
#include <fcntl.h>
#include <signal.h>
#include <stdarg.h>
#include <stdatomic.h>
#include <stdlib.h>
#include <string.h>
#include <sys/syscall.h>
#include <unistd.h>

struct statx;

extern void *__libc_malloc(size_t);
extern void *__libc_calloc(size_t, size_t);
extern void *__libc_realloc(void *, size_t);

enum { UNSYNCED = 16 };

static const char *kind;
static long call, piece, told, survives;
static atomic_long calls;
static atomic_int ready;

static long number(const char *name, long otherwise) {
  const char *text = getenv(name);
  return text ? strtol(text, 0, 10) : otherwise;
}

__attribute__((constructor)) static void begin(void) {
  call = number("REFUSE_CALL", 0);
  piece = number("REFUSE_PIECE", 0);
  told = number("REFUSE_TOLD", -1);
  survives = number("REFUSE_SURVIVES", 0);
  kind = getenv("REFUSE_KIND");
  atomic_store(&ready, kind != 0);
}

/* Whether this call, of this kind, is the one that is to fail. */
static int chosen(const char *this_kind) {
  if (!atomic_load(&ready) || strcmp(kind, this_kind) != 0 || atomic_fetch_add(&calls, 1) + 1 != call)
    return 0;
  if (told >= 0)
    syscall(SYS_write, told, "x", 1);
  return 1;
}

void *malloc(size_t size) {
  if (chosen("alloc")) return errno = ENOMEM, (void *)0;
  return __libc_malloc(size);
}

void *calloc(size_t count, size_t size) {
  if (chosen("alloc")) return errno = ENOMEM, (void *)0;
  return __libc_calloc(count, size);
}

void *realloc(void *old, size_t size) {
  if (chosen("alloc")) return errno = ENOMEM, (void *)0;
  return __libc_realloc(old, size);
}

/* What lay where the disk was written since its last sync. */
static struct { int file; off_t at; size_t count; char *bytes; } before[UNSYNCED];
static int writes;

static void remember(int file, off_t at, size_t count) {
  if (!atomic_load(&ready) || strcmp(kind, "lost-disk") != 0 || writes == UNSYNCED) return;
  char *bytes = __libc_calloc(count, 1);
  if (!bytes) abort();
  syscall(SYS_pread64, file, bytes, count, at);
  before[writes].file = file;
  before[writes].at = at;
  before[writes].count = count;
  before[writes++].bytes = bytes;
}

static void lose(void) {
  for (int i = writes - 1; i >= 0; i--)
    if (!(survives >> i & 1))
      syscall(SYS_pwrite64, before[i].file, before[i].bytes, before[i].count, before[i].at);
}

/* Whether this call on the disk fails; or it is the last one. */
static int disk_fails(void) {
  if (chosen("disk") || chosen("torn-disk")) return errno = EIO, 1;
  int killed = chosen("killed-disk"), lost = chosen("lost-disk");
  if (lost) lose();
  if (killed || lost) syscall(SYS_kill, syscall(SYS_getpid), SIGKILL);
  return 0;
}

static int interrupted(void) {
  return chosen("interrupted-disk") ? errno = EINTR, 1 : 0;
}

int open(const char *name, int flags, ...) {
  va_list more;
  va_start(more, flags);
  int mode = va_arg(more, int);
  va_end(more);
  if (chosen("open")) return errno = EIO, -1;
  if ((!strcmp(name, "clearview.keep") || !strcmp(name, ".")) && (interrupted() || disk_fails())) return -1;
  return syscall(SYS_openat, AT_FDCWD, name, flags, mode);
}

int statx(int folder, const char *name, int flags, unsigned mask, struct statx *found) {
  return disk_fails() ? -1 : syscall(SYS_statx, folder, name, flags, mask, found);
}

int flock(int file, int how) {
  return interrupted() || disk_fails() ? -1 : syscall(SYS_flock, file, how);
}

int fsync(int file) {
  if (interrupted() || disk_fails()) return -1;
  writes = 0;
  return syscall(SYS_fsync, file);
}

ssize_t pread(int file, void *to, size_t count, off_t at) {
  if (interrupted() || disk_fails()) return -1;
  if (count > 1 && chosen("short-disk")) count = 1;
  return syscall(SYS_pread64, file, to, count, at);
}

ssize_t pwrite(int file, const void *from, size_t count, off_t at) {
  if (interrupted()) return -1;
  if (disk_fails()) {
    if (!strcmp(kind, "torn-disk")) syscall(SYS_pwrite64, file, from, count / 2, at), errno = EIO;
    return -1;
  }
  if (count > 1 && chosen("short-disk")) count = 1;
  remember(file, at, count);
  return syscall(SYS_pwrite64, file, from, count, at);
}

ssize_t read(int file, void *to, size_t count) {
  if (chosen("read")) return errno = EIO, -1;
  if (chosen("interrupted-read")) return errno = EINTR, -1;
  if (count > 1 && chosen("short-read")) count = 1;
  return syscall(SYS_read, file, to, count);
}

ssize_t write(int file, const void *from, size_t count) {
  if (piece > 0 && count > (size_t)piece) count = piece;
  if (chosen("write")) return errno = EIO, -1;
  if (chosen("interrupted-write")) return errno = EINTR, -1;
  if (count > 1 && chosen("short-write")) count = 1;
  return syscall(SYS_write, file, from, count);
}
