/*
 * Calls of the system that fail when they are told to. failing.rs loads this before the C library (LD_PRELOAD). Only
 * calls on LANE_FAILING_FOLDER and on what is in it are looked at, and each is told by its name on standard output.
 * LANE_FAILING_CALL fails, at its turn LANE_FAILING_TURN, from 1 on. LANE_FAILING_HOW is an error's number, or a word
 * that stands at the call. Where the C library's calls take `...`, these do not: on x86-64 it comes to the same.
 */
#define _GNU_SOURCE
#include <dlfcn.h>
#include <errno.h>
#include <linux/aio_abi.h>
#include <stdio.h>
#include <stdlib.h>
#include <string.h>
#include <sys/mman.h>
#include <sys/syscall.h>

enum { BLOCK = 512, FILES = 1024, DIRECT_LENGTH = 0x2000, DIRECT_LENGTH_WORD = 39 };

/* What is loaded after this. */
#define REAL(name) ((__typeof__(name) *)(size_t)dlsym(RTLD_NEXT, #name))

static char ours[FILES];
static void *mapped;
static long left; /* writes that are under way */

static int how(const char *word)
{
    return strcmp(getenv("LANE_FAILING_HOW"), word) == 0;
}

/* Whether it is the call's turn to fail; errno is 0 where a word says how. */
static int fails(const char *call)
{
    static int turns;
    dprintf(1, "%s\n", call);
    if (strcmp(call, getenv("LANE_FAILING_CALL")) != 0 || ++turns != atoi(getenv("LANE_FAILING_TURN")))
        return 0;
    dprintf(1, "fails\n");
    errno = atoi(getenv("LANE_FAILING_HOW"));
    return 1;
}

static int is_ours(int fd)
{
    return fd >= 0 && fd < FILES && ours[fd];
}

static int within(const char *path)
{
    const char *folder = getenv("LANE_FAILING_FOLDER");
    return strncmp(path, folder, strlen(folder)) == 0;
}

int open(const char *path, int flags, mode_t mode);
int close(int fd);
ssize_t pwrite(int fd, const void *bytes, size_t n, off_t at);

#define CALL(type, name, failure, takes, lends) \
    type name takes { return is_ours(fd) && fails(#name) ? failure : REAL(name) lends; }
CALL(int, flock, -1, (int fd, int operation), (fd, operation))
CALL(int, fstatfs, -1, (int fd, void *found), (fd, found))
CALL(off_t, lseek, -1, (int fd, off_t at, int from), (fd, at, from))
CALL(int, ftruncate, -1, (int fd, off_t length), (fd, length))
CALL(int, fdatasync, -1, (int fd), (fd))
CALL(int, fsync, -1, (int fd), (fd))
CALL(int, posix_fadvise, errno, (int fd, off_t at, off_t n, int advice), (fd, at, n, advice))

/* Another puts something there. */
static void take(const char *path)
{
    int fd = REAL(open)(path, 1, 0); /* to be written */
    if (fd < 0 || REAL(pwrite)(fd, "taken", 5, 0) != 5)
        dprintf(1, "not taken\n");
    REAL(close)(fd);
}

/* Word: taken, another has put something there just before. */
int open(const char *path, int flags, mode_t mode)
{
    if (within(path) && fails("open")) {
        if (errno != 0)
            return -1;
        take(path);
    }
    int fd = REAL(open)(path, flags, mode);
    if (fd >= 0 && fd < FILES)
        ours[fd] = (char)within(path);
    return fd;
}

int close(int fd)
{
    if (is_ours(fd))
        ours[fd] = 0;
    return REAL(close)(fd);
}

/* Rust asks by null pointers whether there is such a call. Told 4096, that is the least length of a write. */
int statx(int folder, const char *path, int flags, unsigned asked, unsigned *found)
{
    const char *call = asked == DIRECT_LENGTH ? "statx" : "metadata";
    if (path == NULL || !(within(path) || is_ours(folder)) || !fails(call))
        return REAL(statx)(folder, path, flags, asked, found);
    found[0] = DIRECT_LENGTH;
    found[DIRECT_LENGTH_WORD] = 4096;
    return how("4096") ? 0 : -1;
}

void *mmap(void *at, size_t n, int protection, int flags, int fd, off_t from)
{
    if (!is_ours(fd))
        return REAL(mmap)(at, n, protection, flags, fd, from);
    if ((flags & MAP_PRIVATE) == 0)
        dprintf(1, "shared\n"); /* its writes would reach the card unseen */
    return mapped = fails("mmap") ? MAP_FAILED : REAL(mmap)(at, n, protection, flags, fd, from);
}

int madvise(void *at, size_t n, int advice)
{
    return at != NULL && at == mapped && fails("madvise") ? -1 : REAL(madvise)(at, n, advice);
}

/* Words: half, the rest is there at the next call; end, nothing is there. */
ssize_t pread(int fd, void *buffer, size_t n, off_t at)
{
    if (!is_ours(fd) || !fails("pread"))
        return REAL(pread)(fd, buffer, n, at);
    return errno != 0 ? -1 : REAL(pread)(fd, buffer, how("half") ? n / 2 / BLOCK * BLOCK : 0, at);
}

/* Words: half, the first half of the blocks is done, and the rest fails; short, the rest is done if asked for. */
ssize_t pwrite(int fd, const void *bytes, size_t n, off_t at)
{
    static size_t rest;
    static off_t rest_at;
    if (!is_ours(fd))
        return REAL(pwrite)(fd, bytes, n, at);
    if (n == rest && at == rest_at) {
        rest = 0;
        dprintf(1, "rest\n");
        errno = EPROTO;
        return how("half") ? -1 : REAL(pwrite)(fd, bytes, n, at);
    }
    if (fails("pwrite")) {
        if (errno != 0)
            return -1;
        size_t half = n / 2 / BLOCK * BLOCK;
        rest = n - half;
        rest_at = at + (off_t)half;
        n = half;
    }
    return REAL(pwrite)(fd, bytes, n, at);
}

static void under_way(long writes)
{
    left = writes;
    dprintf(1, "under way %ld\n", left);
}

long syscall(long number, long a, long b, long c, long d, long e, long f);

/* Words: one, it takes one at a time from here on; midway, it takes one, and the next call fails. */
static long submit(long context, long writes, long list)
{
    static int limited;
    int failing = fails("io_submit");
    if ((failing && errno != 0) || (limited && how("midway"))) {
        limited = 0;
        errno = EAGAIN;
        return -1;
    }
    limited |= failing;
    long taken = REAL(syscall)(SYS_io_submit, context, limited ? 1 : writes, list, 0, 0, 0);
    under_way(left + (taken > 0 ? taken : 0));
    return taken;
}

/* Words: one, it tells of one; spoilt, the first write has failed; short, the last one lacks a block. */
static long events(long context, long least, struct io_event *list, long limit)
{
    int failing = fails("io_getevents");
    if (failing && errno != 0)
        return -1;
    long n = failing && how("one") ? 1 : least;
    long ended = REAL(syscall)(SYS_io_getevents, context, n, n, (long)list, limit, 0);
    under_way(left - (ended > 0 ? ended : 0));
    if (failing && ended > 0 && how("spoilt"))
        list[0].res = -EPROTO;
    if (failing && ended > 0 && how("short"))
        list[ended - 1].res -= BLOCK;
    return ended;
}

long syscall(long number, long a, long b, long c, long d, long e, long f)
{
    if (number == SYS_io_submit)
        return submit(a, b, c);
    if (number == SYS_io_getevents)
        return events(a, b, (struct io_event *)d, e);
    if (number == SYS_io_setup && fails("io_setup"))
        return -1;
    long answer = REAL(syscall)(number, a, b, c, d, e, f);
    if (number == SYS_io_destroy && answer == 0)
        under_way(0);
    return number == SYS_io_destroy && fails("io_destroy") ? -1 : answer;
}

/* Rust's names of them. */
#define ALSO(name) __typeof__(name) name##64 __attribute__((alias(#name), copy(name)))
ALSO(open);
ALSO(lseek);
ALSO(pread);
ALSO(pwrite);
ALSO(ftruncate);
