/* Loaded before the C library: it counts the growths, reads and writes of a program from its first read
   or write on standard streams, or growth, on, and makes one of them fail, or all reads and writes move
   one byte.

   FAIL_KIND  growth, read, write: what is counted; FAIL_AT the ordinal, from 0, of the one that fails
   FAIL_AS    error (by default), or signal: it fails as one that a signal interrupted, once
   FAIL_SHORT 1: each read and each write moves at most one byte
   FAIL_PLANT a wrong adapter over the streams: full (a short read is told as a full buffer), whole (a short
              write is told as the whole piece), twice (a write is made twice), end (an error of reading is
              told as the end of the input)
   FAIL_COUNT a file's name: the three counts stand there as numbers of the machine */
#define _GNU_SOURCE
#include <dlfcn.h>
#include <errno.h>
#include <fcntl.h>
#include <stdatomic.h>
#include <stdint.h>
#include <stdlib.h>
#include <string.h>
#include <sys/mman.h>
#include <unistd.h>

enum kind { GROWTH, READ, WRITE, KINDS };

static atomic_long own_counts[KINDS];
static atomic_long *counts = own_counts;
static int begun, failing = -1, by_signal, one_byte;
static const char *planted = "";
static long failing_at = -1;

static void *(*true_malloc)(size_t);
static void *(*true_realloc)(void *, size_t);
static ssize_t (*true_read)(int, void *, size_t);
static ssize_t (*true_write)(int, const void *, size_t);

/* the counts stand in the file from the start, so that they are there however the program ends */
static void share(const char *name)
{
    int file = open(name, O_RDWR | O_CREAT | O_TRUNC, 0600);
    void *place;
    if (file < 0 || ftruncate(file, sizeof own_counts))
        _exit(99);
    place = mmap(NULL, sizeof own_counts, PROT_READ | PROT_WRITE, MAP_SHARED, file, 0);
    if (place == MAP_FAILED)
        _exit(99);
    close(file);
    counts = place;
}

__attribute__((constructor)) static void begin(void)
{
    const char *kind = getenv("FAIL_KIND"), *at = getenv("FAIL_AT"), *as = getenv("FAIL_AS");
    true_malloc = (void *(*)(size_t))dlsym(RTLD_NEXT, "malloc");
    true_realloc = (void *(*)(void *, size_t))dlsym(RTLD_NEXT, "realloc");
    true_read = (ssize_t(*)(int, void *, size_t))dlsym(RTLD_NEXT, "read");
    true_write = (ssize_t(*)(int, const void *, size_t))dlsym(RTLD_NEXT, "write");
    if (kind)
        failing = !strcmp(kind, "growth") ? GROWTH : !strcmp(kind, "read") ? READ : WRITE;
    if (at)
        failing_at = atol(at);
    by_signal = as && !strcmp(as, "signal");
    one_byte = getenv("FAIL_SHORT") != NULL;
    if (getenv("FAIL_PLANT"))
        planted = getenv("FAIL_PLANT");
    if (getenv("FAIL_COUNT"))
        share(getenv("FAIL_COUNT"));
    begun = 1;
}

/* whether this one is to fail */
static int fails(enum kind kind)
{
    if (!begun)
        return 0;
    return atomic_fetch_add(&counts[kind], 1) == failing_at && (int)kind == failing;
}

void *malloc(size_t size)
{
    if (!true_malloc)
        true_malloc = (void *(*)(size_t))dlsym(RTLD_NEXT, "malloc");
    if (fails(GROWTH)) {
        errno = ENOMEM;
        return NULL;
    }
    return true_malloc(size);
}

void *realloc(void *old, size_t size)
{
    if (!true_realloc)
        true_realloc = (void *(*)(void *, size_t))dlsym(RTLD_NEXT, "realloc");
    if (fails(GROWTH)) {
        errno = ENOMEM;
        return NULL;
    }
    return true_realloc(old, size);
}

ssize_t read(int file, void *room, size_t size)
{
    ssize_t moved;
    if (file == 0 && fails(READ)) {
        errno = by_signal ? EINTR : EIO;
        return strcmp(planted, "end") ? -1 : 0;
    }
    moved = true_read(file, room, file == 0 && one_byte && size > 1 ? 1 : size);
    return file == 0 && moved > 0 && !strcmp(planted, "full") ? (ssize_t)size : moved;
}

ssize_t write(int file, const void *bytes, size_t size)
{
    ssize_t moved;
    if (file == 1 && fails(WRITE)) {
        errno = by_signal ? EINTR : EIO;
        return -1;
    }
    moved = true_write(file, bytes, file == 1 && one_byte && size > 1 ? 1 : size);
    if (file == 1 && moved > 0 && !strcmp(planted, "twice"))
        true_write(file, bytes, (size_t)moved);
    return file == 1 && moved > 0 && !strcmp(planted, "whole") ? (ssize_t)size : moved;
}
