/*
 * The ready layer where a call of the system fails. It is linked with an object of lane_file.c in which each name of
 * CALLS below has `told_` before it: those stand here, and fail when they are told to.
 *
 *   system FOLDER    uses the folder, which is empty
 */
#define _GNU_SOURCE
#include "check.h"

#include <dirent.h>
#include <fcntl.h>
#include <linux/aio_abi.h>
#include <stdarg.h>
#include <sys/file.h>
#include <sys/mman.h>
#include <sys/stat.h>
#include <sys/syscall.h>
#include <unistd.h>

#define CALLS(DO) \
    DO(open) DO(fstat) DO(flock) DO(ftruncate) DO(mmap) DO(madvise) DO(posix_fadvise) DO(pread) DO(pwrite) \
    DO(fdatasync) DO(fsync) DO(posix_memalign) DO(strndup) DO(syscall)

#define NUMBER(name) CALL_##name,
enum { CALLS(NUMBER) CALLS_END };

/* Which call fails, at which of its turns, and how. */
static struct {
    int call, turn, turns;
    int part;    /* a read or a write is done in part, in place of failing */
    int rest;    /* the rest of a write in part, which fails */
    int noticed; /* an answer told of it */
} told;

static const uint32_t RANGE[2] = {FIRST, PAGES};

static int fails(int call)
{
    if (call != told.call || ++told.turns != told.turn)
        return 0;
    errno = EPROTO;
    return 1;
}

/* What the layer calls. */
int told_open(const char *path, int flags, ...);
int told_fstat(int fd, struct stat *found);
int told_flock(int fd, int operation);
int told_ftruncate(int fd, off_t length);
void *told_mmap(void *at, size_t n, int protection, int flags, int fd, off_t from);
int told_madvise(void *at, size_t n, int advice);
int told_posix_fadvise(int fd, off_t at, off_t n, int advice);
ssize_t told_pread(int fd, void *buffer, size_t n, off_t at);
ssize_t told_pwrite(int fd, const void *bytes, size_t n, off_t at);
int told_fdatasync(int fd);
int told_fsync(int fd);
int told_posix_memalign(void **memory, size_t alignment, size_t n);
char *told_strndup(const char *text, size_t n);
long told_syscall(long number, ...);

int told_open(const char *path, int flags, ...)
{
    va_list rest;
    va_start(rest, flags);
    mode_t mode = va_arg(rest, mode_t);
    va_end(rest);
    return fails(CALL_open) ? -1 : open(path, flags, mode);
}

int told_fstat(int fd, struct stat *found)
{
    return fails(CALL_fstat) ? -1 : fstat(fd, found);
}

int told_flock(int fd, int operation)
{
    return fails(CALL_flock) ? -1 : flock(fd, operation);
}

int told_ftruncate(int fd, off_t length)
{
    return fails(CALL_ftruncate) ? -1 : ftruncate(fd, length);
}

void *told_mmap(void *at, size_t n, int protection, int flags, int fd, off_t from)
{
    HOLDS(flags == MAP_PRIVATE);
    return fails(CALL_mmap) ? MAP_FAILED : mmap(at, n, protection, flags, fd, from);
}

int told_madvise(void *at, size_t n, int advice)
{
    return fails(CALL_madvise) ? -1 : madvise(at, n, advice);
}

int told_posix_fadvise(int fd, off_t at, off_t n, int advice)
{
    return fails(CALL_posix_fadvise) ? EPROTO : posix_fadvise(fd, at, n, advice);
}

ssize_t told_pread(int fd, void *buffer, size_t n, off_t at)
{
    if (fails(CALL_pread))
        return told.part ? 0 : -1;
    return pread(fd, buffer, n, at);
}

ssize_t told_pwrite(int fd, const void *bytes, size_t n, off_t at)
{
    if (fails(CALL_pwrite)) {
        told.rest = told.part;
        return told.part ? (ssize_t)(n / 2) : -1;
    }
    if (told.rest) {
        told.rest = 0;
        errno = EPROTO;
        return -1;
    }
    return pwrite(fd, bytes, n, at);
}

int told_fdatasync(int fd)
{
    return fails(CALL_fdatasync) ? -1 : fdatasync(fd);
}

int told_fsync(int fd)
{
    return fails(CALL_fsync) ? -1 : fsync(fd);
}

int told_posix_memalign(void **memory, size_t alignment, size_t n)
{
    return fails(CALL_posix_memalign) ? EPROTO : posix_memalign(memory, alignment, n);
}

char *told_strndup(const char *text, size_t n)
{
    return fails(CALL_strndup) ? NULL : strndup(text, n);
}

/* Writes at once: how many were taken and have ended, and what happens to them. */
static struct {
    long under_way, ended, destroyed;
    int one_by_one;  /* a submit takes one */
    int refuse_at;   /* the submit that is refused */
    int interrupt;   /* a wait is interrupted first */
    int lose_events; /* a wait fails */
    int spoil;       /* an end tells of half a write (1), or of a failure (2) */
    int submits, waits;
} several;

static long submit(aio_context_t context, long n, struct iocb **list)
{
    if (++several.submits == several.refuse_at) {
        errno = EAGAIN;
        return -1;
    }
    long taken = syscall(SYS_io_submit, context, several.one_by_one ? 1L : n, list);
    several.under_way += taken > 0 ? taken : 0;
    return taken;
}

static long wait_for(aio_context_t context, long least, long most, struct io_event *events)
{
    several.waits++;
    if ((several.interrupt && several.waits == 1) || several.lose_events) {
        errno = several.lose_events ? EPROTO : EINTR;
        return -1;
    }
    long ended = syscall(SYS_io_getevents, context, least, most, events, NULL);
    several.ended += ended > 0 ? ended : 0;
    if (several.spoil == 1)
        events[0].res /= 2;
    if (several.spoil == 2)
        events[0].res = -EPROTO;
    return ended;
}

long told_syscall(long number, ...)
{
    va_list rest;
    long a[4];
    va_start(rest, number);
    for (int i = 0; i < 4; i++)
        a[i] = va_arg(rest, long);
    va_end(rest);
    if (fails(CALL_syscall))
        return -1;
    if (number == SYS_io_submit)
        return submit((aio_context_t)a[0], a[1], (struct iocb **)a[2]);
    if (number == SYS_io_getevents)
        return wait_for((aio_context_t)a[0], a[1], a[2], (struct io_event *)a[3]);
    several.destroyed += number == SYS_io_destroy;
    return syscall(number, a[0], a[1], a[2], a[3]);
}

static int open_files(void)
{
    int n = 0;
    DIR *folder = opendir("/proc/self/fd");
    HOLDS(folder != NULL);
    while (readdir(folder) != NULL)
        n++;
    closedir(folder);
    return n;
}

static lane_file_options kill_safe(int unmapped)
{
    lane_file_options options = {0};
    options.promise = LANE_PROMISE_KILL;
    options.unmapped = unmapped;
    return options;
}

/* An answer is done, or tells of the failure with its reason. */
static int clear(int answer)
{
    int error = errno;
    if (answer == LANE_DONE)
        return 1;
    HOLDS(answer >= LANE_FILE_SYSTEM && answer <= LANE_FILE_READ);
    HOLDS(error == EPROTO || (told.part && error == EIO));
    told.noticed = 1;
    return 0;
}

/* Whether the layer may go on without the call: 1 it may not, 0 it must, -1 it depends on what was asked. */
static int needed(int call)
{
    switch (call) {
    case CALL_mmap:
    case CALL_madvise:
    case CALL_posix_fadvise: return 0;
    case CALL_open:
    case CALL_pread:
    case CALL_syscall: return -1; /* a sector that is not known, or no writes at once, is no failure */
    default: return 1;
    }
}

static void use(lane_file *lane, int *safe)
{
    int answer = LANE_DONE;
    for (uint32_t i = 0; i < PAGES && answer == LANE_DONE; i += 2)
        answer = fill(lane, FIRST + i, 1);
    if (clear(answer))
        *safe = clear(answer = lane_file_commit(lane));
    if (answer == LANE_DONE)
        clear(answer = lane_file_settle(lane));
    if (answer != LANE_DONE)
        is_stopped(lane);
    lane_file_close(lane);
}

/* Creates, commits and opens again; whatever fails, what was answered done is found afterwards. */
static void session(const char *path, int unmapped)
{
    const lane_file_options options = kill_safe(unmapped);
    int safe = 0;
    lane_file *lane;
    unlink(path);
    int made = clear(lane_file_create(&lane, path, 3 * AREA, RANGE, 2, &options));
    HOLDS(made == (lane != NULL) && made == (access(path, F_OK) == 0));
    if (!made)
        return;
    use(lane, &safe);
    if (clear(lane_file_open(&lane, path, &options)))
        use(lane, &safe);
    told.call = CALLS_END;
    IS(lane_file_open(&lane, path, &options), LANE_DONE);
    HOLDS(shown(lane, FIRST) == 1 || !safe);
    lane_file_close(lane);
}

/* Gives how many turns there were. */
static int every_turn(const char *path, int call, int part, int unmapped)
{
    int before = open_files(), turn = 0;
    do {
        memset(&told, 0, sizeof told);
        told.call = call;
        told.turn = ++turn;
        told.part = part;
        session(path, unmapped);
        IS(open_files(), before);
        HOLDS(told.turns < turn || needed(call) < 0 || needed(call) == told.noticed);
    } while (told.turns >= turn);
    return turn - 1;
}

/* How often a session comes to a call, where none fails. */
static int turns_of(const char *path, int call, int unmapped)
{
    memset(&told, 0, sizeof told);
    told.call = call;
    session(path, unmapped);
    return told.turns;
}

/* Blocks apart, more than go at once, written straight through the disk's drive. */
enum { RUNS = 300, APART = 2 * RUNS * LANE_BLOCK };

static int write_apart(const lane_drive *drive, uint8_t *card, uint8_t byte)
{
    lane_run runs[RUNS];
    memset(card, byte, APART);
    for (size_t i = 0; i < RUNS; i++) {
        runs[i].first = 2 * i;
        runs[i].blocks = 1;
    }
    return drive->write_runs(drive->self, card, runs, RUNS);
}

static void written_apart(const lane_drive *drive, uint8_t *card, uint8_t byte)
{
    IS(drive->read(drive->self, 0, card, APART), 0);
    for (size_t i = 0; i < RUNS; i++)
        HOLDS(card[2 * i * LANE_BLOCK] == byte && card[(2 * i + 1) * LANE_BLOCK] != byte);
}

/* All that was taken has ended, or the context is gone, which waits for it. */
static int nothing_under_way(void)
{
    return several.under_way == several.ended || several.destroyed > 0;
}

static void spoil(const lane_drive *drive, uint8_t *card, int *knob, int value, int wanted)
{
    memset(&several, 0, sizeof several);
    *knob = value;
    IS(write_apart(drive, card, 9), wanted);
    HOLDS(several.under_way > 0 && nothing_under_way());
}

static void writes_at_once(const char *path)
{
    const lane_file_options options = kill_safe(0);
    lane_drive drive;
    void *card;
    unlink(path);
    IS(lane_disk_create(&drive, path, APART, &options), LANE_DONE);
    HOLDS(posix_memalign(&card, 4096, APART) == 0);
    if (drive.write_runs == NULL) {
        printf("system: writes at once are not tried: no device below\n");
    } else {
        spoil(&drive, card, &several.spoil, 0, 0);
        IS(several.submits, 2);
        written_apart(&drive, card, 9);
        spoil(&drive, card, &several.one_by_one, 1, 0);
        IS(several.submits, RUNS);
        spoil(&drive, card, &several.interrupt, 1, 0);
        spoil(&drive, card, &several.spoil, 1, EIO);
        spoil(&drive, card, &several.spoil, 2, EPROTO);
        memset(&several, 0, sizeof several);
        several.one_by_one = 1;
        several.refuse_at = 3;
        IS(write_apart(&drive, card, 9), EAGAIN);
        HOLDS(several.under_way == 2 && nothing_under_way());
        spoil(&drive, card, &several.lose_events, 1, EPROTO);
        IS(several.destroyed, 1);
        HOLDS(write_apart(&drive, card, 9) != 0);
        printf("system: writes at once: taken one by one, refused, interrupted, short, failed, lost\n");
    }
    drive.close(drive.self);
    free(card);
}

int main(int argc, char **argv)
{
    char path[4096];
    HOLDS(argc == 2);
    snprintf(path, sizeof path, "%s/card", argv[1]);
    int turns = 0;
    IS(turns_of(path, CALL_fsync, 0), 4); /* the folder, and the file at each flush of the create */
    IS(turns_of(path, CALL_mmap, 0), 2);
    IS(turns_of(path, CALL_mmap, 1), 0);
    for (int call = 0; call < CALLS_END; call++)
        turns += every_turn(path, call, 0, 0);
    turns += every_turn(path, CALL_pwrite, 1, 0);
    turns += every_turn(path, CALL_pread, 1, 0);
    turns += every_turn(path, CALL_pread, 0, 1);
    turns += every_turn(path, CALL_pread, 1, 1);
    turns += every_turn(path, CALL_posix_memalign, 0, 1);
    printf("system: %d calls of the system failed, one a session\n", turns);
    writes_at_once(path);
    return 0;
}
