/* Refuses one growth, one opening, read or write of a file, or shortens one, of the program that it is loaded into (LD_PRELOAD):
   REFUSE=memory|calls|short, NTH=N, and where there is an Nth such call the file REPORT is made.
   scripts/runs/refused_growths.py builds and uses it. */
#define _GNU_SOURCE
#include <errno.h>
#include <fcntl.h>
#include <stdarg.h>
#include <stdatomic.h>
#include <stdlib.h>
#include <sys/syscall.h>
#include <sys/uio.h>
#include <unistd.h>

extern void *__libc_malloc(size_t);
extern void *__libc_realloc(void *, size_t);

static atomic_long seen;
static long nth;
static char kind;

__attribute__((constructor)) static void begin(void) {
    const char *refuse = getenv("REFUSE"), *number = getenv("NTH");
    nth = number ? atol(number) : 0;
    kind = refuse ? refuse[0] : 0;
}

static int is_nth(char of) {
    int file;
    if (kind != of || atomic_fetch_add(&seen, 1) + 1 != nth) return 0;
    file = syscall(SYS_openat, AT_FDCWD, getenv("REPORT"), O_WRONLY | O_CREAT, 0600);
    syscall(SYS_close, file);
    return 1;
}

void *malloc(size_t size) { return is_nth('m') ? NULL : __libc_malloc(size); }

void *realloc(void *block, size_t size) { return is_nth('m') ? NULL : __libc_realloc(block, size); }

static int is_refused(void) {
    if (!is_nth('c')) return 0;
    errno = EIO;
    return 1;
}

static size_t shortened(size_t size) { return size > 1 && is_nth('s') ? 1 : size; }

int open(const char *path, int flags, ...) {
    mode_t mode = 0;
    if (flags & O_CREAT) {
        va_list rest;
        va_start(rest, flags);
        mode = va_arg(rest, mode_t);
        va_end(rest);
    }
    return is_refused() ? -1 : syscall(SYS_openat, AT_FDCWD, path, flags, mode);
}

ssize_t read(int file, void *to, size_t size) {
    return is_refused() ? -1 : syscall(SYS_read, file, to, shortened(size));
}

ssize_t write(int file, const void *from, size_t size) {
    return is_refused() ? -1 : syscall(SYS_write, file, from, shortened(size));
}

ssize_t writev(int file, const struct iovec *parts, int count) {
    if (is_refused()) return -1;
    if (count > 0 && parts[0].iov_len > 1 && is_nth('s')) return syscall(SYS_write, file, parts[0].iov_base, (size_t)1);
    return syscall(SYS_writev, file, parts, count);
}
