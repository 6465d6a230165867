// Stands between the program and the C library: refuses one request for memory, one thread, one read or one write, and
// cuts each read and write to one byte. REFUSE names what: malloc, thread, read, write, short (cuts alone), read_byte or
// write_byte (cuts, and refuses a read or a write), and of files other than those that the program begins with open, seek,
// file_read or file_write. REFUSE_AT says which one is refused, from 1, and REFUSE_MARK names a file that is made when it
// was. Threads may ask at the same time.
#define _GNU_SOURCE
#include <dlfcn.h>
#include <errno.h>
#include <fcntl.h>
#include <pthread.h>
#include <stdarg.h>
#include <stdlib.h>
#include <string.h>
#include <sys/syscall.h>
#include <unistd.h>

static long counted;

static int asked(const char *what) {
    const char *name = getenv("REFUSE");
    return name != NULL && strcmp(name, what) == 0;
}

static int cut(void) { return asked("short") || asked("read_byte") || asked("write_byte"); }

static int refused(const char *what) {
    const char *at = getenv("REFUSE_AT");
    if (!asked(what) || at == NULL || __atomic_add_fetch(&counted, 1, __ATOMIC_RELAXED) != atol(at)) return 0;
    const char *mark = getenv("REFUSE_MARK");
    // It is not to be refused itself, nor to come back here.
    if (mark != NULL) close((int)syscall(SYS_openat, AT_FDCWD, mark, O_CREAT | O_WRONLY, 0600));
    return 1;
}

void *malloc(size_t size) {
    static void *(*next)(size_t);
    if (next == NULL) next = (void *(*)(size_t))dlsym(RTLD_NEXT, "malloc");
    return refused("malloc") ? NULL : next(size);
}

void *realloc(void *old, size_t size) {
    static void *(*next)(void *, size_t);
    if (next == NULL) next = (void *(*)(void *, size_t))dlsym(RTLD_NEXT, "realloc");
    return refused("malloc") ? NULL : next(old, size);
}

int pthread_create(pthread_t *thread, const pthread_attr_t *attr, void *(*start)(void *), void *with) {
    static int (*next)(pthread_t *, const pthread_attr_t *, void *(*)(void *), void *);
    if (next == NULL) next = (int (*)(pthread_t *, const pthread_attr_t *, void *(*)(void *), void *))dlsym(RTLD_NEXT, "pthread_create");
    return refused("thread") ? EAGAIN : next(thread, attr, start, with);
}

// The mode of a file that is made.
#define MODE(flags) \
    mode_t mode = 0; \
    if ((flags) & O_CREAT) { \
        va_list rest; \
        va_start(rest, flags); \
        mode = va_arg(rest, mode_t); \
        va_end(rest); \
    }

int open(const char *name, int flags, ...) {
    static int (*next)(const char *, int, ...);
    if (next == NULL) next = (int (*)(const char *, int, ...))dlsym(RTLD_NEXT, "open");
    MODE(flags)
    if (refused("open")) {
        errno = EMFILE;
        return -1;
    }
    return next(name, flags, mode);
}

int openat(int folder, const char *name, int flags, ...) {
    static int (*next)(int, const char *, int, ...);
    if (next == NULL) next = (int (*)(int, const char *, int, ...))dlsym(RTLD_NEXT, "openat");
    MODE(flags)
    if (refused("open")) {
        errno = EMFILE;
        return -1;
    }
    return next(folder, name, flags, mode);
}

off_t lseek(int fd, off_t place, int from) {
    static off_t (*next)(int, off_t, int);
    if (next == NULL) next = (off_t (*)(int, off_t, int))dlsym(RTLD_NEXT, "lseek");
    if (refused("seek")) {
        errno = EIO;
        return -1;
    }
    return next(fd, place, from);
}

ssize_t read(int fd, void *to, size_t size) {
    static ssize_t (*next)(int, void *, size_t);
    if (next == NULL) next = (ssize_t (*)(int, void *, size_t))dlsym(RTLD_NEXT, "read");
    if ((fd == 0 && (refused("read") || refused("read_byte"))) || (fd > 2 && refused("file_read"))) {
        errno = EIO;
        return -1;
    }
    return next(fd, to, cut() && size > 1 ? 1 : size);
}

ssize_t write(int fd, const void *from, size_t size) {
    static ssize_t (*next)(int, const void *, size_t);
    if (next == NULL) next = (ssize_t (*)(int, const void *, size_t))dlsym(RTLD_NEXT, "write");
    if ((fd == 1 && (refused("write") || refused("write_byte"))) || (fd > 2 && refused("file_write"))) {
        errno = EIO;
        return -1;
    }
    return next(fd, from, cut() && size > 1 ? 1 : size);
}

ssize_t __write(int fd, const void *from, size_t size) { return write(fd, from, size); }
