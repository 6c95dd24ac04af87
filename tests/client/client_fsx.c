/* Of the guest of tests/client/linux: operations at random on one file. Behind each of them all of the file is compared with an image in memory. */
#define _GNU_SOURCE
#include <errno.h>
#include <fcntl.h>
#include <stdio.h>
#include <stdlib.h>
#include <string.h>
#include <sys/mman.h>
#include <sys/stat.h>
#include <unistd.h>
#include "client.h"

/* The most bytes behind the file's base, those of a page, how many operations pass until the client forgets what it has of the file, and how many until
 * the number of them is told. */
enum { MOST = 131072, PAGE = 4096, ANEW = 40, TOLD = 1000 };
enum { WRITE, DIRECT, MAPPED, CUT, READ, READ_DIRECT, READ_MAPPED, REOPEN, APPEND, KINDS };
static const char *const NAMES[KINDS] = {"write", "direct write", "mapped write", "cut", "read", "direct read", "mapped read", "reopen", "append"};

/* A file whose bytes below the base are none that was written. */
struct play { const char *path; off_t base; int file; long size; };

static unsigned char image[MOST], found[MOST + PAGE];

/* Other bytes in the image. (Behind its end it has zeros.) */
static void renewed(struct play *p, long at, long length, int mark) {
    for (long i = at; i < at + length; i++) image[i] = mark + i % 251;
    if (at + length > p->size) p->size = at + length;
}

static int wrote(struct play *p, int flags, long at, long length) {
    int file = flags ? open(p->path, O_WRONLY | flags) : p->file;
    if (file < 0) return 0;
    long came = flags & O_APPEND ? write(file, image + at, length) : pwrite(file, image + at, length, p->base + at);
    return (!flags || !close(file)) && came == length;
}

static int reads(struct play *p, int flags, long at, long length) {
    int file = flags ? open(p->path, O_RDONLY | flags) : p->file;
    if (file < 0) return 0;
    long came = pread(file, found, length, p->base + at);
    return (!flags || !close(file)) && came == length && !memcmp(found, image + at, length);
}

/* Writes or compares through a shared map; where that ends behind the file's end, the file is made longer before. */
static int maps(struct play *p, int writes, long at, long length) {
    struct stat a;
    long from = at / PAGE * PAGE, all = at - from + length;
    if (fstat(p->file, &a) || (writes && a.st_size < p->base + at + length && ftruncate(p->file, p->base + at + length))) return 0;
    unsigned char *there = mmap(NULL, all, PROT_READ | PROT_WRITE, MAP_SHARED, p->file, p->base + from);
    if (there == MAP_FAILED) return 0;
    int came = 1;
    if (writes) memcpy(there + at - from, image + at, length);
    else came = !memcmp(there + at - from, image + at, length);
    return !munmap(there, all) && came;
}

static int cut(struct play *p, long size) {
    if (size < p->size) memset(image + size, 0, p->size - size);
    p->size = size;
    return !ftruncate(p->file, p->base + size);
}

static int reopened(struct play *p) {
    if (close(p->file)) return 0;
    p->file = open(p->path, O_RDWR);
    return p->file >= 0;
}

/* One operation: whether it came to what it is to come to. */
static int did(struct play *p, int kind, int mark) {
    long length = 1 + random() % (1L << random() % 17), at = random() % MOST;
    int reads_only = kind == READ || kind == READ_DIRECT || kind == READ_MAPPED;
    if (kind == CUT) return cut(p, at);
    if (kind == REOPEN) return reopened(p);
    long end = reads_only ? p->size : MOST;
    if (at >= end) at = end ? at % end : 0;
    if (kind == APPEND) at = p->size;
    if (length > end - at) length = end - at;
    if (!length) return 1;
    if (!reads_only) renewed(p, at, length, mark);
    switch (kind) {
    case WRITE: return wrote(p, 0, at, length);
    case DIRECT: return wrote(p, O_DIRECT, at, length);
    case APPEND: return wrote(p, O_APPEND, at, length);
    case READ: return reads(p, 0, at, length);
    case READ_DIRECT: return reads(p, O_DIRECT, at, length);
    default: return maps(p, kind == MAPPED, at, length);
    }
}

/* The first place at which the file is not as the image, from the page before its base on; its size, where it has another one; or -1. */
static long differs(const struct play *p) {
    struct stat a;
    long before = p->base ? PAGE : 0;
    if (fstat(p->file, &a) || a.st_size != p->base + p->size) return a.st_size;
    long came = pread(p->file, found, before + p->size, p->base - before);
    if (came != before + p->size) return came < 0 ? 0 : came;
    for (long i = 0; i < before; i++)
        if (found[i]) return p->base - before + i;
    if (!memcmp(found + before, image, p->size)) return -1;
    long i = 0;
    while (found[before + i] == image[i]) i++;
    return p->base + i;
}

static void played(const char *name, unsigned seed, int operations, off_t base) {
    struct play p = {.path = AT "fsx", .base = base, .file = open(AT "fsx", O_CREAT | O_TRUNC | O_RDWR, 0600)};
    int counts[KINDS] = {0}, number = 0, holds = p.file >= 0 && !ftruncate(p.file, base), kind = REOPEN;
    long place = -1;
    srandom(seed);
    memset(image, 0, sizeof image);
    for (errno = 0; holds && place < 0 && number < operations; number++) {
        if (number % TOLD == 0) printf("note: %d operations\n", number), fflush(stdout);
        kind = random() % KINDS;
        counts[kind]++;
        holds = did(&p, kind, random() % 256);
        if (number % ANEW == 0) holds = holds && !fsync(p.file), forget();
        if (holds) place = differs(&p);
    }
    for (int i = 0; i < KINDS; i++) printf("note: %s: %d\n", NAMES[i], counts[i]);
    step(name, holds && place < 0 && number == operations, "number %d, a %s, errno %d (%s); the first place that differs: %ld", number, NAMES[kind], errno,
         strerror(errno), place);
    ends("the file is closed", close(p.file), 0);
    ends("and removed", unlink(p.path), 0);
}

void fsx(void) {
    played("10,000 operations at random on a file leave what they are to leave, each of them", 87, 10000, 0);
    played("so do 2,000 around the place 2^32", 88, 2000, (1L << 32) - MOST / 2);
}
