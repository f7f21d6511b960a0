/* Notes when each fdatasync of a process begins and ends, for gaps.py: LD_PRELOAD=syncs.so SYNCS=FILE PROGRAM ..

       cc -O2 -shared -fPIC -o syncs.so syncs.c -ldl

   FILE is made: a count of notes, and for each the nanoseconds of its begin and end, its thread and its file descriptor, in the order of
   their ends. It outlives a process that is killed. */
#define _GNU_SOURCE
#include <dlfcn.h>
#include <fcntl.h>
#include <stdatomic.h>
#include <stdint.h>
#include <stdlib.h>
#include <sys/mman.h>
#include <sys/syscall.h>
#include <time.h>
#include <unistd.h>

#define MOST 1000000

struct note {
    uint64_t begin, end;
    uint32_t thread, file;
};

struct notes {
    _Atomic uint64_t count;
    struct note all[MOST];
};

static struct notes *notes;
static int (*real)(int);

static uint64_t now(void) {
    struct timespec time;
    clock_gettime(CLOCK_MONOTONIC, &time);
    return (uint64_t)time.tv_sec * 1000000000 + time.tv_nsec;
}

__attribute__((constructor)) static void start(void) {
    real = (int (*)(int))dlsym(RTLD_NEXT, "fdatasync");
    int file = open(getenv("SYNCS"), O_RDWR | O_CREAT | O_TRUNC, 0644);
    if (file < 0 || ftruncate(file, sizeof(struct notes)) < 0) abort();
    notes = mmap(NULL, sizeof(struct notes), PROT_READ | PROT_WRITE, MAP_SHARED, file, 0);
    close(file);
    if (notes == MAP_FAILED) abort();
}

int fdatasync(int file) {
    uint64_t begin = now();
    int result = real(file);
    uint64_t end = now();
    uint64_t place = atomic_fetch_add(&notes->count, 1);
    if (place < MOST) notes->all[place] = (struct note){begin, end, (uint32_t)syscall(SYS_gettid), (uint32_t)file};
    return result;
}
