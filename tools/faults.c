/* A library that stands before the system's own: it counts a program's calls by kind, and lets one of them fail.

   The environment says which: FAULTS_KIND, FAULTS_NUMBER (from 1; 0: none) and FAULTS_ON (1: all later ones fail as
   well). FAULTS_TOLD names a file of the size of `struct told`, which has the counts and what was hit, however the
   program ends. tools/faults.py builds and reads it. */

#define _GNU_SOURCE
#include <errno.h>
#include <fcntl.h>
#include <stdarg.h>
#include <stdlib.h>
#include <string.h>
#include <sys/mman.h>
#include <sys/syscall.h>
#include <unistd.h>

enum kind { ALLOC, OPEN, READ, WRITE, SHORT, NOTHING, KINDS };
static const char *const names[KINDS] = {"alloc", "open", "read", "write", "short", "nothing"};
enum { FILES = 8, NAME = 256 };

struct told {
    long calls[KINDS];          /* so far */
    long hits;                  /* calls that were made fail */
    long given;                 /* bytes that the file of the last name had given when the first of them was */
    long written;               /* bytes that were written before it */
    long files;                 /* names that were opened, each counted again behind another one */
    long allocations[FILES];    /* before each of these was opened first */
    char name[NAME];            /* the last one */
};

static struct told nowhere, *told = &nowhere;
static enum kind chosen = KINDS;
static long number, on, taken, put;

__attribute__((constructor)) static void begin(void) {
    const char *kind = getenv("FAULTS_KIND"), *which = getenv("FAULTS_NUMBER"), *later = getenv("FAULTS_ON");
    const char *path = getenv("FAULTS_TOLD");
    if (path) {
        int file = syscall(SYS_openat, AT_FDCWD, path, O_RDWR);
        void *place = mmap(NULL, sizeof *told, PROT_READ | PROT_WRITE, MAP_SHARED, file, 0);
        if (place != MAP_FAILED) told = place;
        close(file);
    }
    for (int i = 0; kind && i < KINDS; i++)
        if (!strcmp(kind, names[i])) chosen = i;
    number = which ? atol(which) : 0;
    on = later && *later == '1';
    memset(told->calls, 0, sizeof told->calls);
}

/* Whether this call fails. */
static int fails(enum kind kind) {
    long call = ++told->calls[kind];
    if (kind != chosen || !number || call < number || (call > number && !on)) return 0;
    if (!told->hits++) {
        told->given = taken;
        told->written = put;
    }
    return 1;
}

static void *refused(void) {
    errno = ENOMEM;
    return NULL;
}

void *__libc_malloc(size_t);
void *__libc_calloc(size_t, size_t);
void *__libc_realloc(void *, size_t);

void *malloc(size_t size) { return fails(ALLOC) ? refused() : __libc_malloc(size); }
void *calloc(size_t count, size_t size) { return fails(ALLOC) ? refused() : __libc_calloc(count, size); }
void *realloc(void *old, size_t size) { return fails(ALLOC) ? refused() : __libc_realloc(old, size); }

static long error(int code) {
    errno = code;
    return -1;
}

static int opened(int folder, const char *path, int flags, mode_t mode) {
    if (strncmp(told->name, path, NAME - 1) || !told->files) {
        if (told->files < FILES) told->allocations[told->files] = told->calls[ALLOC];
        told->files++;
        strncpy(told->name, path, NAME - 1);
        taken = 0;
    }
    return fails(OPEN) ? error(EIO) : syscall(SYS_openat, folder, path, flags, mode);
}

#define MODE(flags, mode) \
    do { va_list rest; va_start(rest, flags); mode = va_arg(rest, int); va_end(rest); } while (0)

int openat(int folder, const char *path, int flags, ...) {
    mode_t mode;
    MODE(flags, mode);
    return opened(folder, path, flags, mode);
}
int openat64(int folder, const char *path, int flags, ...) {
    mode_t mode;
    MODE(flags, mode);
    return opened(folder, path, flags, mode);
}
int open(const char *path, int flags, ...) {
    mode_t mode;
    MODE(flags, mode);
    return opened(AT_FDCWD, path, flags, mode);
}
int open64(const char *path, int flags, ...) {
    mode_t mode;
    MODE(flags, mode);
    return opened(AT_FDCWD, path, flags, mode);
}

static ssize_t gave(ssize_t count) {
    if (count > 0) taken += count;
    return count;
}

ssize_t read(int file, void *into, size_t size) {
    if (fails(READ)) return error(EIO);
    return gave(syscall(SYS_read, file, into, size > 1 && fails(SHORT) ? 1 : size));
}
ssize_t pread(int file, void *into, size_t size, off_t at) {
    if (fails(READ)) return error(EIO);
    return gave(syscall(SYS_pread64, file, into, size > 1 && fails(SHORT) ? 1 : size, at));
}
ssize_t pread64(int file, void *into, size_t size, off_t at) { return pread(file, into, size, at); }

ssize_t write(int file, const void *from, size_t size) {
    if (fails(WRITE)) return error(ENOSPC);
    if (fails(NOTHING)) return 0;
    ssize_t count = syscall(SYS_write, file, from, size > 1 && fails(SHORT) ? 1 : size);
    if (count > 0) put += count;
    return count;
}
ssize_t __write(int file, const void *from, size_t size) { return write(file, from, size); }
