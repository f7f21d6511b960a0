// Stands before the C library, counts the calls of one kind that a program makes, and lets one of them fail.
//
// FAILING_KIND is `memory` (allocations), `files` (calls on files) or `net` (calls on sockets), FAILING_COUNT names a file of eight bytes in
// which they are counted, and FAILING_NUMBER is the number of the call that fails, from 1; 0 lets none fail. All threads count together.
// An allocation fails with NULL, and every other call with -1 and EIO.
#define _GNU_SOURCE
#include <dlfcn.h>
#include <errno.h>
#include <fcntl.h>
#include <stdarg.h>
#include <stdatomic.h>
#include <stdint.h>
#include <stdlib.h>
#include <string.h>
#include <sys/mman.h>
#include <sys/socket.h>
#include <unistd.h>

enum kind { NONE, MEMORY, FILES, NET };

static enum kind kind;
static _Atomic uint64_t *count;
static uint64_t failing;

// What dlsym takes before the real allocator is known. It is never given back.
static char early[65536];
static size_t early_end;

static void *take_early(size_t size) {
    size_t start = (early_end + 15) & ~(size_t)15;
    if (start + size > sizeof early) {
        abort();
    }
    early_end = start + size;
    return early + start;
}

#define REAL(result, name, ...) static result (*real_##name)(__VA_ARGS__)
REAL(void *, malloc, size_t);
REAL(void *, realloc, void *, size_t);
REAL(int, open, const char *, int, ...);
REAL(ssize_t, read, int, void *, size_t);
REAL(ssize_t, write, int, const void *, size_t);
REAL(off_t, lseek, int, off_t, int);
REAL(int, fdatasync, int);
REAL(int, fsync, int);
REAL(int, ftruncate, int, off_t);
REAL(int, socket, int, int, int);
REAL(int, bind, int, const struct sockaddr *, socklen_t);
REAL(int, listen, int, int);
REAL(int, accept4, int, struct sockaddr *, socklen_t *, int);
REAL(int, connect, int, const struct sockaddr *, socklen_t);
REAL(ssize_t, send, int, const void *, size_t, int);
REAL(ssize_t, recv, int, void *, size_t, int);

static enum kind kind_named(const char *name) {
    return strcmp(name, "memory") == 0 ? MEMORY : strcmp(name, "files") == 0 ? FILES : NET;
}

__attribute__((constructor)) static void begin(void) {
#define FIND(name) real_##name = dlsym(RTLD_NEXT, #name)
    FIND(malloc);
    FIND(realloc);
    FIND(open);
    FIND(read);
    FIND(write);
    FIND(lseek);
    FIND(fdatasync);
    FIND(fsync);
    FIND(ftruncate);
    FIND(socket);
    FIND(bind);
    FIND(listen);
    FIND(accept4);
    FIND(connect);
    FIND(send);
    FIND(recv);
    const char *named = getenv("FAILING_KIND");
    const char *number = getenv("FAILING_NUMBER");
    const char *counted = getenv("FAILING_COUNT");
    if (named == NULL || number == NULL || counted == NULL) {
        return;
    }
    int file = real_open(counted, O_RDWR);
    if (file < 0) {
        abort();
    }
    void *at = mmap(NULL, sizeof *count, PROT_READ | PROT_WRITE, MAP_SHARED, file, 0);
    if (at == MAP_FAILED) {
        abort();
    }
    close(file);
    count = at;
    failing = strtoull(number, NULL, 10);
    kind = kind_named(named);
}

static int fails(enum kind one, int error) {
    if (kind != one || atomic_fetch_add(count, 1) + 1 != failing) {
        return 0;
    }
    errno = error;
    return 1;
}

void *malloc(size_t size) {
    if (real_malloc == NULL) {
        return take_early(size);
    }
    return fails(MEMORY, ENOMEM) ? NULL : real_malloc(size);
}

void *realloc(void *old, size_t size) {
    return fails(MEMORY, ENOMEM) ? NULL : real_realloc(old, size);
}

int open(const char *name, int how, ...) {
    va_list more;
    va_start(more, how);
    int mode = va_arg(more, int);
    va_end(more);
    return fails(FILES, EIO) ? -1 : real_open(name, how, mode);
}

ssize_t read(int file, void *into, size_t size) {
    return fails(FILES, EIO) ? -1 : real_read(file, into, size);
}

ssize_t write(int file, const void *from, size_t size) {
    return fails(FILES, EIO) ? -1 : real_write(file, from, size);
}

off_t lseek(int file, off_t by, int whence) {
    return fails(FILES, EIO) ? -1 : real_lseek(file, by, whence);
}

int fdatasync(int file) {
    return fails(FILES, EIO) ? -1 : real_fdatasync(file);
}

int fsync(int file) {
    return fails(FILES, EIO) ? -1 : real_fsync(file);
}

int ftruncate(int file, off_t size) {
    return fails(FILES, EIO) ? -1 : real_ftruncate(file, size);
}

int socket(int domain, int type, int protocol) {
    return fails(NET, EIO) ? -1 : real_socket(domain, type, protocol);
}

int bind(int link, const struct sockaddr *address, socklen_t size) {
    return fails(NET, EIO) ? -1 : real_bind(link, address, size);
}

int listen(int link, int waiting) {
    return fails(NET, EIO) ? -1 : real_listen(link, waiting);
}

int accept4(int link, struct sockaddr *address, socklen_t *size, int how) {
    return fails(NET, EIO) ? -1 : real_accept4(link, address, size, how);
}

int connect(int link, const struct sockaddr *address, socklen_t size) {
    return fails(NET, EIO) ? -1 : real_connect(link, address, size);
}

ssize_t send(int link, const void *from, size_t size, int how) {
    return fails(NET, EIO) ? -1 : real_send(link, from, size, how);
}

ssize_t recv(int link, void *into, size_t size, int how) {
    return fails(NET, EIO) ? -1 : real_recv(link, into, size, how);
}
