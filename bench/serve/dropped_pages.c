/* A disk whose sync fails once, and whose kernel then takes the pages for written, for edge_test.py:

       cc -O2 -shared -fPIC -o dropped_pages.so dropped_pages.c -ldl
       LD_PRELOAD=dropped_pages.so DROP_WHEN=FILE PROGRAM ..

   Beside each journal X.ahj stands X.ahj.disk, what the disk has: a good fdatasync carries over the pages of 4,096 bytes that were written
   since the last. Where FILE is there, it has a number of syncs of journals that go well still; the one after these fails with EIO, carries
   nothing over, and forgets what was written, as ext4 does. FILE is gone then. A read gives what was written all the same. */
#define _GNU_SOURCE
#include <dlfcn.h>
#include <errno.h>
#include <fcntl.h>
#include <pthread.h>
#include <stdio.h>
#include <stdlib.h>
#include <string.h>
#include <sys/stat.h>
#include <unistd.h>

#define PAGE 4096
#define MOST_FILES 64
#define MOST_PAGES 16384

struct pages {
    char name[4096];
    unsigned char dirty[MOST_PAGES];
};

static struct pages *files[MOST_FILES];
static pthread_mutex_t lock = PTHREAD_MUTEX_INITIALIZER;
static ssize_t (*real_write)(int, const void *, size_t);
static int (*real_fdatasync)(int);

__attribute__((constructor)) static void begin(void) {
    real_write = (ssize_t(*)(int, const void *, size_t))dlsym(RTLD_NEXT, "write");
    real_fdatasync = (int (*)(int))dlsym(RTLD_NEXT, "fdatasync");
}

/* The pages of the journal that is open so, or none. */
static struct pages *pages_of(int file) {
    char link[64], name[4096];
    snprintf(link, sizeof link, "/proc/self/fd/%d", file);
    ssize_t length = readlink(link, name, sizeof name - 1);
    if (length < 4 || strncmp(name + length - 4, ".ahj", 4) != 0) {
        return NULL;
    }
    name[length] = 0;
    for (int i = 0; i < MOST_FILES; i++) {
        if (files[i] == NULL) {
            files[i] = calloc(1, sizeof **files);
            strcpy(files[i]->name, name);
        }
        if (strcmp(files[i]->name, name) == 0) {
            return files[i];
        }
    }
    abort();
}

ssize_t write(int file, const void *bytes, size_t count) {
    pthread_mutex_lock(&lock);
    struct pages *pages = pages_of(file);
    off_t at = pages ? lseek(file, 0, SEEK_CUR) : 0;
    ssize_t written = real_write(file, bytes, count);
    for (off_t byte = at; pages && byte < at + written; byte++) {
        pages->dirty[byte / PAGE] = 1;
    }
    pthread_mutex_unlock(&lock);
    return written;
}

/* Whether this sync is the one that fails. */
static int fails(void) {
    const char *when = getenv("DROP_WHEN");
    int file = when ? open(when, O_RDWR) : -1;
    if (file < 0) {
        return 0;
    }
    char left = '0';
    if (pread(file, &left, 1, 0) == 1 && left > '0') {
        left--;
        pwrite(file, &left, 1, 0);
        close(file);
        return 0;
    }
    close(file);
    unlink(when);
    return 1;
}

static void carry(int file, struct pages *pages) {
    char name[4200], bytes[PAGE];
    snprintf(name, sizeof name, "%s.disk", pages->name);
    int disk = open(name, O_RDWR | O_CREAT, 0644);
    for (int page = 0; page < MOST_PAGES; page++) {
        if (pages->dirty[page]) {
            ssize_t count = pread(file, bytes, PAGE, (off_t)page * PAGE);
            if (count > 0) {
                pwrite(disk, bytes, count, (off_t)page * PAGE);
            }
        }
    }
    struct stat seen;
    fstat(file, &seen);
    ftruncate(disk, seen.st_size);
    close(disk);
}

int fdatasync(int file) {
    pthread_mutex_lock(&lock);
    struct pages *pages = pages_of(file);
    int failed = pages && fails();
    if (pages) {
        if (!failed) {
            carry(file, pages);
        }
        memset(pages->dirty, 0, sizeof pages->dirty);
    }
    pthread_mutex_unlock(&lock);
    if (failed) {
        errno = EIO;
        return -1;
    }
    return real_fdatasync(file);
}
