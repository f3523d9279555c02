/* Preloaded by .ci/deep.d/injected, so that one call of the program fails.

   INJECT names what fails: "alloc N", "read N" or "write N", the N-th allocation, read or write, counted from 1; or "bytes", where
   nothing fails and each read and write moves one byte. Where the call fails the file INJECT_NOTE is made. */
#define _GNU_SOURCE
#include <dlfcn.h>
#include <errno.h>
#include <fcntl.h>
#include <stdio.h>
#include <stdlib.h>
#include <string.h>
#include <sys/uio.h>
#include <unistd.h>

extern void *__libc_malloc(size_t);
extern void *__libc_calloc(size_t, size_t);
extern void *__libc_realloc(void *, size_t);
extern void *__libc_memalign(size_t, size_t);

static char what[8];
static unsigned long left;

__attribute__((constructor)) static void begin(void) {
    const char *words = getenv("INJECT");
    if (words) sscanf(words, "%7s %lu", what, &left);
}

static int fails(const char *kind) {
    if (strcmp(what, kind) || left == 0 || --left > 0) return 0;
    const char *note = getenv("INJECT_NOTE");
    if (note) close(open(note, O_WRONLY | O_CREAT, 0600));
    return 1;
}

static void *none(void) {
    errno = ENOMEM;
    return NULL;
}

void *malloc(size_t n) { return fails("alloc") ? none() : __libc_malloc(n); }
void *calloc(size_t n, size_t size) { return fails("alloc") ? none() : __libc_calloc(n, size); }
void *realloc(void *p, size_t n) { return fails("alloc") ? none() : __libc_realloc(p, n); }
void *aligned_alloc(size_t align, size_t n) { return fails("alloc") ? none() : __libc_memalign(align, n); }
int posix_memalign(void **p, size_t align, size_t n) {
    void *block = fails("alloc") ? NULL : __libc_memalign(align, n);
    if (!block) return ENOMEM;
    *p = block;
    return 0;
}

static ssize_t refused(void) {
    errno = EIO;
    return -1;
}

static size_t at_most(size_t n) { return strcmp(what, "bytes") || n == 0 ? n : 1; }

ssize_t read(int fd, void *to, size_t n) {
    ssize_t (*call)(int, void *, size_t) = dlsym(RTLD_NEXT, "read");
    return fails("read") ? refused() : call(fd, to, at_most(n));
}

ssize_t write(int fd, const void *from, size_t n) {
    ssize_t (*call)(int, const void *, size_t) = dlsym(RTLD_NEXT, "write");
    return fails("write") ? refused() : call(fd, from, at_most(n));
}

ssize_t writev(int fd, const struct iovec *parts, int count) {
    ssize_t (*call)(int, const struct iovec *, int) = dlsym(RTLD_NEXT, "writev");
    if (fails("write")) return refused();
    if (strcmp(what, "bytes") || count < 1) return call(fd, parts, count);
    return write(fd, parts[0].iov_base, parts[0].iov_len);
}
