// A library that is loaded before the C library (LD_PRELOAD) and lets one call of a program fail:
// of the calls of the kind FAILING, which are counted from 1, the one with the number FAILING_AT.
// The count stands in the first 8 bytes of the file FAILING_COUNT, so it outlives the program.
#define _GNU_SOURCE
#include <errno.h>
#include <fcntl.h>
#include <stdarg.h>
#include <stdatomic.h>
#include <stdlib.h>
#include <string.h>
#include <sys/mman.h>
#include <sys/stat.h>
#include <sys/syscall.h>
#include <unistd.h>

extern void *__libc_malloc(size_t);
extern void *__libc_realloc(void *, size_t);

static const char *failing;
static unsigned long failing_at;
static atomic_ulong *count;

__attribute__((constructor)) static void begin(void) {
    const char *at = getenv("FAILING_AT"), *path = getenv("FAILING_COUNT");
    int file = path ? (int)syscall(SYS_openat, AT_FDCWD, path, O_RDWR) : -1;
    void *shared = mmap(0, sizeof *count, PROT_READ | PROT_WRITE, MAP_SHARED, file, 0);
    if (shared == MAP_FAILED)
        abort();
    failing = getenv("FAILING");
    failing_at = at ? strtoul(at, 0, 10) : 0;
    syscall(SYS_close, file);
    count = shared;
}

// Whether this call, of this kind, fails.
static int fails(const char *kind) {
    if (!count || !failing || strcmp(failing, kind) != 0 || ++*count != failing_at)
        return 0;
    errno = EIO;
    return 1;
}

void *malloc(size_t size) { return fails("memory") ? 0 : __libc_malloc(size); }

void *realloc(void *old, size_t size) { return fails("memory") ? 0 : __libc_realloc(old, size); }

int open(const char *path, int flags, ...) {
    va_list rest;
    va_start(rest, flags);
    int mode = va_arg(rest, int);
    va_end(rest);
    return fails("open") ? -1 : (int)syscall(SYS_openat, AT_FDCWD, path, flags, mode);
}

ssize_t read(int file, void *to, size_t size) {
    return fails("read") ? -1 : syscall(SYS_read, file, to, size);
}

ssize_t write(int file, const void *from, size_t size) {
    return fails("write") ? -1 : syscall(SYS_write, file, from, size);
}

ssize_t __write(int file, const void *from, size_t size) { return write(file, from, size); }

int statx(int folder, const char *path, int flags, unsigned mask, struct statx *to) {
    return fails("statx") ? -1 : (int)syscall(SYS_statx, folder, path, flags, mask, to);
}

int fchmod(int file, mode_t mode) {
    return fails("fchmod") ? -1 : (int)syscall(SYS_fchmod, file, mode);
}

int fsync(int file) { return fails("fsync") ? -1 : (int)syscall(SYS_fsync, file); }

int rename(const char *from, const char *to) {
    return fails("rename") ? -1 : (int)syscall(SYS_rename, from, to);
}

int close(int file) { return fails("close") ? -1 : (int)syscall(SYS_close, file); }
