/* Loaded before a program, this stops it at the system call that changes files and has the number STOP_AT, counted from 1.
   STOP_HOW is kill (the program ends there and then), fail (the call fails as on a broken disk), or nolink (as kill, on a disk
   where no file can have two names). */
#define _GNU_SOURCE
#include <dlfcn.h>
#include <errno.h>
#include <fcntl.h>
#include <signal.h>
#include <stdarg.h>
#include <stdlib.h>
#include <string.h>
#include <sys/types.h>
#include <unistd.h>

static int how(const char *name) {
    const char *asked = getenv("STOP_HOW");
    return asked && strcmp(asked, name) == 0;
}

/* Whether this call is the one; where the program is to end, it ends here. */
static int reached(void) {
    static int calls;
    const char *at = getenv("STOP_AT");
    if (!at || __sync_add_and_fetch(&calls, 1) != atoi(at)) return 0;
    if (how("fail")) { errno = EIO; return 1; }
    kill(getpid(), SIGKILL);
    return 1;
}

#define REAL(name, ...) ((int (*)(__VA_ARGS__))dlsym(RTLD_NEXT, name))

int open64(const char *path, int flags, ...) {
    va_list rest;
    va_start(rest, flags);
    mode_t mode = va_arg(rest, mode_t);
    va_end(rest);
    if ((flags & O_CREAT) && reached()) return -1;
    return REAL("open64", const char *, int, mode_t)(path, flags, mode);
}

ssize_t write(int file, const void *bytes, size_t length) {
    if (file > 2 && reached()) return -1;
    return ((ssize_t (*)(int, const void *, size_t))dlsym(RTLD_NEXT, "write"))(file, bytes, length);
}

int fsync(int file) { return reached() ? -1 : REAL("fsync", int)(file); }

int rename(const char *from, const char *to) {
    return reached() ? -1 : REAL("rename", const char *, const char *)(from, to);
}

int unlink(const char *path) { return reached() ? -1 : REAL("unlink", const char *)(path); }

int linkat(int a, const char *from, int b, const char *to, int flags) {
    if (how("nolink")) { errno = EPERM; return -1; }
    return reached() ? -1 : REAL("linkat", int, const char *, int, const char *, int)(a, from, b, to, flags);
}

ssize_t copy_file_range(int in, off64_t *from, int out, off64_t *to, size_t length, unsigned flags) {
    if (reached()) return -1;
    return ((ssize_t (*)(int, off64_t *, int, off64_t *, size_t, unsigned))dlsym(RTLD_NEXT, "copy_file_range"))(
        in, from, out, to, length, flags);
}
