/* The ready layer: lane_file.h over the library's calls. First the system's calls, then the disk, then the lane. */
#ifndef _GNU_SOURCE
#define _GNU_SOURCE /* O_DIRECT, flock, madvise, statx */
#endif
#include "lane_file.h"

#include <errno.h>
#include <fcntl.h>
#include <stdbool.h>
#include <stdio.h>
#include <stdlib.h>
#include <string.h>
#include <sys/file.h>
#include <sys/mman.h>
#include <sys/stat.h>
#include <sys/types.h>
#include <unistd.h>
#ifdef __linux__
#include <linux/aio_abi.h>
#include <sys/syscall.h>
#include <sys/sysmacros.h>
#include <sys/vfs.h>
#endif

#ifndef O_DIRECT
#define O_DIRECT 0 /* there is none: a promise that asks for it is refused */
#endif

enum {
    ALIGNMENT = 4096,
    AT_A_TIME = 1 << 20, /* bytes in one read or write of a create */
    CARD_MOST = LANE_CARD_MAX * LANE_BLOCK
};

/* An answer with its reason; a drive of the program's own may tell none that errno.h has. */
static int because(int answer, int error)
{
    errno = error > 0 ? error : EIO;
    return answer;
}

/* Why the last call of the system failed. */
static int reason(void)
{
    return errno != 0 ? errno : EIO;
}

static lane_file_options chosen(const lane_file_options *options)
{
    const lane_file_options defaults = {0};
    return options != NULL ? *options : defaults;
}

const char *lane_file_text(int answer)
{
    if (answer >= 0)
        return lane_refusal_text((uint32_t)answer);
    switch (answer) {
    case LANE_FILE_STOPPED: return "a write or a flush failed before: the lane is to be closed and opened anew";
    case LANE_FILE_BUSY: return "another lane has it open, or the device is in use";
    case LANE_FILE_EXISTS: return "there is a file that is not empty, or a device whose blocks are not zeros";
    case LANE_FILE_LENGTH: return "it is not as long as the card that it holds or is to hold";
    case LANE_FILE_PROMISE_DIRECT: return "the promise is not kept: no O_DIRECT for blocks of 512 bytes here";
    case LANE_FILE_PROMISE_SECTOR: return "the promise is not kept: a sector of the device is not 512 bytes";
    case LANE_FILE_PROMISE_DEVICE: return "the promise is not kept: the block device below is not known";
    case LANE_FILE_PROMISE_FILE_SYSTEM:
        return "the promise is not kept: the file system is not known to write in place";
    case LANE_FILE_READ: return "the drive was not read";
    case LANE_FILE_WRITE: return "the drive was not written, or only in part";
    case LANE_FILE_FLUSH: return "the drive was not flushed";
    case LANE_FILE_SYSTEM: return "the system refused a call: errno has the reason";
    case LANE_FILE_VERSION: return "liblane.a is not of the version of lane.h";
    default: return "an answer that this header does not know";
    }
}

/* The system's calls, each from one place. */

static int open_file(const char *path, int flags)
{
    return open(path, flags | O_CLOEXEC, 0666);
}

/* Keeps errno: what went wrong before is what the caller is told. */
static void close_file(int fd)
{
    int error = errno;
    close(fd);
    errno = error;
}

static void remove_file(const char *path)
{
    int error = errno;
    unlink(path);
    errno = error;
}

static ssize_t read_part(int fd, void *buffer, size_t n, uint64_t at)
{
    return pread(fd, buffer, n, (off_t)at);
}

static int read_all(int fd, uint8_t *buffer, size_t n, uint64_t at)
{
    while (n > 0) {
        ssize_t got = read_part(fd, buffer, n, at);
        if (got <= 0)
            return got < 0 ? reason() : EIO;
        buffer += got;
        at += (uint64_t)got;
        n -= (size_t)got;
    }
    return 0;
}

static ssize_t write_part(int fd, const uint8_t *bytes, size_t n, uint64_t at)
{
    return pwrite(fd, bytes, n, (off_t)at);
}

/* A short write is a failure; the rest of it is asked for to learn why. */
static int write_all(int fd, const uint8_t *bytes, size_t n, uint64_t at)
{
    ssize_t put = write_part(fd, bytes, n, at);
    if (put >= 0 && (size_t)put == n)
        return 0;
    if (put >= 0)
        put = write_part(fd, bytes + put, n - (size_t)put, at + (uint64_t)put);
    return put < 0 ? reason() : EIO;
}

static int flush_data(int fd)
{
    return fdatasync(fd) < 0 ? reason() : 0;
}

static int sync_all(int fd)
{
    return fsync(fd) < 0 ? reason() : 0;
}

/* Aligned memory of zeros, or NULL. */
static void *aligned(size_t n)
{
    void *memory = NULL;
    int error = posix_memalign(&memory, ALIGNMENT, n);
    if (error != 0) {
        errno = error;
        return NULL;
    }
    return memset(memory, 0, n);
}

/* Keeps errno, as close_file does. */
static void let_go(void *memory)
{
    int error = errno;
    free(memory);
    errno = error;
}

/* The disk: a file or a block device. */

enum { AT_ONCE = 256 }; /* writes under way together: a commit seldom has so many runs */

typedef struct {
    _Alignas(ALIGNMENT) uint8_t block[LANE_BLOCK]; /* its first, as it was found */
    void *mapping; /* the card, until a lane takes it */
    int fd;
    dev_t below;     /* the block device, or the one that its file system names */
    uint64_t length; /* of what was opened, then of the card */
    bool direct;     /* past the page cache */
    bool file;       /* not a block device */
    int whole;       /* flushes that still sync all of the file: those of a create */
#ifdef __linux__
    aio_context_t aio;
    struct iocb writes[AT_ONCE];
    struct iocb *listed[AT_ONCE];
    struct io_event events[AT_ONCE];
#endif
} disk;

#ifdef __linux__

static long aio_call(long number, uintptr_t a, uintptr_t b, uintptr_t c, uintptr_t d)
{
    return syscall(number, a, b, c, d, NULL);
}

/* False where the system has no such. */
static bool aio_begin(disk *d)
{
    return d->aio != 0 || aio_call(SYS_io_setup, AT_ONCE, (uintptr_t)&d->aio, 0, 0) == 0;
}

/* Waits for all that is under way. Keeps errno. */
static void aio_end(disk *d)
{
    int error = errno;
    if (d->aio != 0)
        aio_call(SYS_io_destroy, d->aio, 0, 0, 0);
    d->aio = 0;
    errno = error;
}

static void aio_list(disk *d, const uint8_t *card, const lane_run *runs, size_t n)
{
    for (size_t i = 0; i < n; i++) {
        struct iocb *w = &d->writes[i];
        size_t at = runs[i].first * LANE_BLOCK, bytes = runs[i].blocks * LANE_BLOCK;
        memset(w, 0, sizeof *w);
        w->aio_data = bytes;
        w->aio_lio_opcode = IOCB_CMD_PWRITE;
        w->aio_fildes = (uint32_t)d->fd;
        w->aio_buf = (uintptr_t)(card + at);
        w->aio_nbytes = bytes;
        w->aio_offset = (int64_t)at;
        d->listed[i] = w;
    }
}

/* What went wrong with writes that have ended; 0 where all are whole. */
static int aio_error(const struct io_event *events, size_t n)
{
    for (size_t i = 0; i < n; i++) {
        if (events[i].res < 0)
            return (int)-events[i].res;
        if ((uint64_t)events[i].res != events[i].data)
            return EIO;
    }
    return 0;
}

/* Nothing is under way when it returns, whatever went wrong: memory that is on its way must not change. */
static int aio_wait(disk *d, size_t left)
{
    int error = 0;
    while (left > 0) {
        long ended = aio_call(SYS_io_getevents, d->aio, left, left, (uintptr_t)d->events);
        if (ended < 0 && errno == EINTR)
            continue;
        if (ended <= 0) {
            error = ended < 0 ? reason() : EIO;
            aio_end(d);
            return error;
        }
        if (error == 0)
            error = aio_error(d->events, (size_t)ended);
        left -= (size_t)ended;
    }
    return error;
}

/* All at once, and all waited for. */
static int aio_write(disk *d, const uint8_t *card, const lane_run *runs, size_t n)
{
    size_t taken = 0;
    int refused = 0;
    aio_list(d, card, runs, n);
    while (taken < n && refused == 0) {
        long more = aio_call(SYS_io_submit, d->aio, n - taken, (uintptr_t)(d->listed + taken), 0);
        if (more > 0)
            taken += (size_t)more;
        else
            refused = more < 0 ? reason() : EIO;
    }
    int error = aio_wait(d, taken);
    return refused != 0 ? refused : error;
}

static int disk_write_runs(void *self, const uint8_t *card, const lane_run *runs, size_t runs_len)
{
    disk *d = self;
    size_t most = runs_len > 1 && aio_begin(d) ? AT_ONCE : 1;
    int error = 0;
    for (size_t i = 0; i < runs_len && error == 0; i += most) {
        size_t at = runs[i].first * LANE_BLOCK;
        if (most == 1)
            error = write_all(d->fd, card + at, runs[i].blocks * LANE_BLOCK, at);
        else
            error = aio_write(d, card, runs + i, runs_len - i < most ? runs_len - i : most);
    }
    return error;
}

/* Do blocks of 512 bytes go past the page cache here? Where the system does not tell, an open that was not refused
   says so. */
static bool takes_blocks(int fd)
{
#ifdef STATX_DIOALIGN
    struct statx found;
    if (statx(fd, "", AT_EMPTY_PATH, STATX_DIOALIGN, &found) == 0 && (found.stx_mask & STATX_DIOALIGN) != 0)
        return found.stx_dio_offset_align >= 1 && found.stx_dio_offset_align <= LANE_BLOCK;
#else
    (void)fd;
#endif
    return true;
}

/* A sector of a block device, "logical" or "physical"; a partition has those of its disk. 0: not known. */
static unsigned long sector(dev_t device, const char *kind)
{
    const char *const up[] = {"", "../"};
    for (size_t i = 0; i < 2; i++) {
        char text[96] = {0};
        snprintf(text, sizeof text, "/sys/dev/block/%u:%u/%squeue/%s_block_size", major(device), minor(device),
                 up[i], kind);
        int fd = open_file(text, O_RDONLY);
        if (fd < 0)
            continue;
        ssize_t n = read_part(fd, text, sizeof text - 1, 0);
        close_file(fd);
        text[n > 0 ? n : 0] = '\0';
        return strtoul(text, NULL, 10);
    }
    return 0;
}

static bool in_place(int fd)
{
    enum { EXT = 0xEF53, XFS = 0x58465342, VFAT = 0x4D44, EXFAT = 0x2011BAB0 };
    struct statfs found;
    if (fstatfs(fd, &found) < 0)
        return false;
    return found.f_type == EXT || found.f_type == XFS || found.f_type == VFAT || found.f_type == EXFAT;
}

static int ask_device(const disk *d)
{
    if (d->file && !in_place(d->fd))
        return LANE_FILE_PROMISE_FILE_SYSTEM;
    unsigned long logical = sector(d->below, "logical"), physical = sector(d->below, "physical");
    if (logical == 0 || physical == 0)
        return LANE_FILE_PROMISE_DEVICE;
    return logical == LANE_BLOCK && physical == LANE_BLOCK ? LANE_DONE : LANE_FILE_PROMISE_SECTOR;
}

/* Without a device below, or through the page cache, the system makes writes one by one in any case. */
static void add_several(lane_drive *drive, const disk *d)
{
    if (d->direct && major(d->below) != 0)
        drive->write_runs = disk_write_runs;
}

#else

static int ask_device(const disk *d)
{
    (void)d;
    return LANE_FILE_PROMISE_DEVICE;
}

static bool takes_blocks(int fd)
{
    (void)fd;
    return true;
}

static void add_several(lane_drive *drive, const disk *d)
{
    (void)drive;
    (void)d;
}

static void aio_end(disk *d)
{
    (void)d;
}

#endif

static uint64_t disk_length(void *self)
{
    const disk *d = self;
    return d->length;
}

static int disk_read(void *self, uint64_t at, void *buffer, size_t n)
{
    const disk *d = self;
    return read_all(d->fd, buffer, n, at);
}

static int disk_write(void *self, uint64_t at, const void *bytes, size_t n)
{
    const disk *d = self;
    return write_all(d->fd, bytes, n, at);
}

static int disk_flush(void *self)
{
    disk *d = self;
    if (d->whole == 0)
        return flush_data(d->fd);
    d->whole--;
    return sync_all(d->fd);
}

/* What the page cache has of header and area is dropped first: a start is to look at the device. */
static void *map_file(int fd, size_t n)
{
#ifdef POSIX_FADV_DONTNEED
    posix_fadvise(fd, 0, (1 + LANE_AREA_MAX) * LANE_BLOCK, POSIX_FADV_DONTNEED);
#endif
    void *card = mmap(NULL, n, PROT_READ | PROT_WRITE, MAP_PRIVATE, fd, 0);
    if (card == MAP_FAILED)
        return NULL;
    madvise(card, n, MADV_RANDOM);
    return card;
}

static void *disk_map(void *self, size_t n)
{
    disk *d = self;
    void *card = d->mapping;
    d->mapping = NULL;
    return card != NULL ? card : map_file(d->fd, n);
}

static void disk_unmap(void *self, void *card, size_t n)
{
    (void)self;
    munmap(card, n);
}

static void disk_close(void *self)
{
    disk *d = self;
    if (d->mapping != NULL)
        disk_unmap(d, d->mapping, (size_t)d->length);
    /* With the file goes the lock: the end of several writes at once takes the system a while. */
    if (d->fd >= 0)
        close_file(d->fd);
    aio_end(d);
    let_go(d);
}

/* A block device is opened for this program alone: one that is mounted, or part of another, is refused. */
static int alone(const char *path)
{
    struct stat found;
    return stat(path, &found) == 0 && S_ISBLK(found.st_mode) ? O_EXCL : 0;
}

/* What the system says of an open that failed. */
static int not_opened(void)
{
    return errno == EBUSY ? LANE_FILE_BUSY : LANE_FILE_SYSTEM;
}

/* Where there is no O_DIRECT, open says EINVAL. */
static int open_direct(disk *d, const char *path, enum lane_file_promise promise)
{
    const int flags = O_RDWR | alone(path);
    d->fd = open_file(path, flags | O_DIRECT);
    if (d->fd < 0 && errno != EINVAL)
        return not_opened();
    d->direct = O_DIRECT != 0 && d->fd >= 0 && takes_blocks(d->fd);
    if (d->direct)
        return LANE_DONE;
    if (promise != LANE_PROMISE_KILL)
        return LANE_FILE_PROMISE_DIRECT;
    if (d->fd >= 0)
        close_file(d->fd);
    d->fd = open_file(path, flags);
    return d->fd >= 0 ? LANE_DONE : not_opened();
}

static int lock(const disk *d)
{
    if (flock(d->fd, LOCK_EX | LOCK_NB) == 0)
        return LANE_DONE;
    return errno == EWOULDBLOCK ? LANE_FILE_BUSY : LANE_FILE_SYSTEM;
}

static int look_at(disk *d)
{
    struct stat found;
    if (fstat(d->fd, &found) < 0)
        return LANE_FILE_SYSTEM;
    d->file = S_ISREG(found.st_mode);
    d->below = d->file ? found.st_dev : found.st_rdev;
    if (!d->file && !S_ISBLK(found.st_mode))
        return because(LANE_FILE_SYSTEM, ENODEV);
    off_t length = d->file ? found.st_size : lseek(d->fd, 0, SEEK_END);
    if (length < 0)
        return LANE_FILE_SYSTEM;
    d->length = (uint64_t)length;
    return LANE_DONE;
}

static int ask(const disk *d, enum lane_file_promise promise)
{
    if (promise == LANE_PROMISE_KILL)
        return LANE_DONE;
    if (!d->direct)
        return LANE_FILE_PROMISE_DIRECT;
    return promise == LANE_PROMISE_VOUCHED ? LANE_DONE : ask_device(d);
}

/* Opened, locked and asked. */
static int take(disk *d, const char *path, enum lane_file_promise promise)
{
    int answer = open_direct(d, path, promise);
    if (answer == LANE_DONE)
        answer = lock(d);
    if (answer == LANE_DONE)
        answer = look_at(d);
    return answer == LANE_DONE ? ask(d, promise) : answer;
}

/* The first block, if there is one: of a file that is mapped from there, so that it is read once. */
static int read_first(disk *d, bool unmapped)
{
    if (d->length < LANE_BLOCK)
        return LANE_DONE;
    if (d->file && !unmapped && d->length <= CARD_MOST)
        d->mapping = map_file(d->fd, (size_t)d->length);
    if (d->mapping != NULL) {
        memcpy(d->block, d->mapping, LANE_BLOCK);
        return LANE_DONE;
    }
    int error = read_all(d->fd, d->block, LANE_BLOCK, 0);
    return error == 0 ? LANE_DONE : because(LANE_FILE_READ, error);
}

static uint32_t number(const uint8_t *bytes)
{
    return bytes[0] | (uint32_t)bytes[1] << 8 | (uint32_t)bytes[2] << 16 | (uint32_t)bytes[3] << 24;
}

/* The blocks of the card that a header tells of; 0 if it tells of none within the limits. */
static size_t told(const uint8_t *header)
{
    uint32_t layout = number(header), area = number(header + 12), ranges = number(header + 16);
    size_t blocks = 1 + (size_t)area;
    if (layout != 1 || area < LANE_AREA_MIN || area > LANE_AREA_MAX || ranges < 1 || ranges > LANE_RANGES_MAX)
        return 0;
    for (uint32_t i = 0; i < ranges; i++) {
        uint32_t pages = number(header + 24 + 8 * i);
        if (pages < 1)
            return 0;
        blocks += LANE_RANGE_BLOCKS(pages);
    }
    return blocks <= LANE_CARD_MAX ? blocks : 0;
}

/* Where the header tells of no card, a start says why: it is lent the whole file, and of a device as much as a
   card can have. */
static int measure(disk *d)
{
    const uint64_t card = (uint64_t)told(d->block) * LANE_BLOCK;
    if (card != 0 && (d->file ? d->length != card : d->length < card))
        return LANE_FILE_LENGTH;
    if (card != 0)
        d->length = card;
    else if (!d->file && d->length > CARD_MOST)
        d->length = CARD_MOST;
    return LANE_DONE;
}

static bool are_zeros(const uint8_t *bytes, size_t n)
{
    return n == 0 || (bytes[0] == 0 && memcmp(bytes, bytes + 1, n - 1) == 0);
}

/* Of a device all blocks are looked at that a card of so many bytes would take. */
static int ask_empty(const disk *d, uint64_t bytes)
{
    if (d->file)
        return d->length == 0 ? LANE_DONE : LANE_FILE_EXISTS;
    uint8_t *part = aligned(AT_A_TIME);
    int error = part == NULL ? ENOMEM : 0, answer = LANE_DONE;
    for (uint64_t at = 0; at < bytes && error == 0 && answer == LANE_DONE; at += AT_A_TIME) {
        size_t n = bytes - at < AT_A_TIME ? (size_t)(bytes - at) : AT_A_TIME;
        error = read_all(d->fd, part, n, at);
        if (error == 0 && !are_zeros(part, n))
            answer = LANE_FILE_EXISTS;
    }
    let_go(part);
    return error == 0 ? answer : because(LANE_FILE_READ, error);
}

static int sync_folder(const char *path)
{
    const char *slash = strrchr(path, '/');
    char *folder = strndup(slash == NULL ? "." : path, slash == NULL || slash == path ? 1 : (size_t)(slash - path));
    if (folder == NULL)
        return LANE_FILE_SYSTEM;
    int fd = open_file(folder, O_RDONLY | O_DIRECTORY);
    let_go(folder);
    if (fd < 0)
        return LANE_FILE_SYSTEM;
    int error = sync_all(fd);
    close_file(fd);
    return error == 0 ? LANE_DONE : because(LANE_FILE_FLUSH, error);
}

/* A file gets its length at once, so that it never holds a part of a card. */
static int make_place(disk *d, const char *path, uint64_t bytes, bool replace)
{
    enum { CREATE_FLUSHES = 3 };
    if (!d->file && d->length < bytes)
        return LANE_FILE_LENGTH;
    int answer = replace ? LANE_DONE : ask_empty(d, bytes);
    if (answer != LANE_DONE)
        return answer;
    d->length = bytes;
    if (!d->file)
        return LANE_DONE;
    d->whole = CREATE_FLUSHES;
    if (ftruncate(d->fd, (off_t)bytes) < 0)
        return LANE_FILE_SYSTEM;
    return sync_folder(path);
}

/* An empty file, if there is none yet. Made without O_DIRECT: an open that is refused for it may leave one. */
static int make_file(const char *path, bool *made)
{
    int fd = open_file(path, O_RDWR | O_CREAT | O_EXCL);
    *made = fd >= 0;
    if (fd < 0)
        return errno == EEXIST ? LANE_DONE : LANE_FILE_SYSTEM;
    close_file(fd);
    return LANE_DONE;
}

static void fill_drive(lane_drive *drive, disk *d)
{
    const lane_drive filled = {.self = d,
                               .length = disk_length,
                               .read = disk_read,
                               .write = disk_write,
                               .flush = disk_flush,
                               .map = disk_map,
                               .unmap = disk_unmap,
                               .close = disk_close};
    *drive = filled;
    add_several(drive, d);
}

/* A disk that is not open yet. */
static int new_disk(lane_drive *drive, disk **d, enum lane_file_promise promise)
{
    memset(drive, 0, sizeof *drive);
    *d = NULL;
    if ((unsigned)promise > LANE_PROMISE_KILL)
        return because(LANE_FILE_SYSTEM, EINVAL);
    *d = aligned(sizeof **d);
    if (*d == NULL)
        return LANE_FILE_SYSTEM;
    (*d)->fd = -1;
    return LANE_DONE;
}

static int hand_out(lane_drive *drive, disk *d, int answer)
{
    if (answer == LANE_DONE)
        fill_drive(drive, d);
    else if (d != NULL)
        disk_close(d);
    return answer;
}

int lane_disk_open(lane_drive *drive, const char *path, const lane_file_options *options)
{
    const lane_file_options o = chosen(options);
    disk *d;
    int answer = new_disk(drive, &d, o.promise);
    if (answer == LANE_DONE)
        answer = take(d, path, o.promise);
    if (answer == LANE_DONE)
        answer = read_first(d, o.unmapped != 0);
    if (answer == LANE_DONE)
        answer = measure(d);
    return hand_out(drive, d, answer);
}

/* Tells whether the file is there, new, for the caller to remove. */
static int create_disk(lane_drive *drive, const char *path, uint64_t bytes, const lane_file_options *o, bool *made)
{
    disk *d;
    int answer = new_disk(drive, &d, o->promise);
    *made = false;
    if (answer == LANE_DONE)
        answer = make_file(path, made);
    if (answer == LANE_DONE)
        answer = take(d, path, o->promise);
    if (answer == LANE_DONE)
        answer = make_place(d, path, bytes, o->replace != 0);
    /* Made, and yet another's: it came in between. */
    if (answer == LANE_FILE_BUSY || answer == LANE_FILE_EXISTS)
        *made = false;
    if (answer != LANE_DONE && *made)
        remove_file(path);
    return hand_out(drive, d, answer);
}

int lane_disk_create(lane_drive *drive, const char *path, uint64_t bytes, const lane_file_options *options)
{
    const lane_file_options o = chosen(options);
    bool made;
    return create_disk(drive, path, bytes, &o, &made);
}

/* The lane. */

/* The area, the home blocks of a commit, the header. */
enum { GATHERED_MAX = LANE_AREA_MAX + LANE_AREA_MAX / 2 + 1 };

struct lane_file {
    lane_drive drive;
    uint8_t *card;
    size_t card_len;
    size_t memory_len;
    enum lane_file_room room;
    bool mapped;  /* the card is the drive's */
    bool stopped; /* a write or a flush has failed */
    bool marked;  /* a snapshot waits for its H */
    bool header;  /* H is made, and its F is not */
    size_t gathered_len;
    size_t gathered[GATHERED_MAX]; /* rising */
    lane_run runs[GATHERED_MAX];
    lane_store store;
    uint8_t memory[LANE_FRAMES_MAX * LANE_BLOCK];
};

#define LENT(l) &(l)->store, (l)->card, (l)->card_len, (l)->memory, (l)->memory_len

static int stop(lane_file *lane, int answer, int error)
{
    lane->stopped = true;
    return because(answer, error);
}

/* Neighbours as one run; block 0 by itself, since it is the one that must be whole at a cut. */
static size_t join(const size_t *blocks, size_t n, lane_run *runs)
{
    size_t joined = 0;
    for (size_t i = 0; i < n; i++) {
        if (i > 0 && blocks[i] == blocks[i - 1] + 1 && blocks[i] != 1) {
            runs[joined - 1].blocks++;
        } else {
            runs[joined].first = blocks[i];
            runs[joined++].blocks = 1;
        }
    }
    return joined;
}

static int write_runs(const lane_drive *drive, const uint8_t *card, const lane_run *runs, size_t n)
{
    int error = 0;
    if (drive->write_runs != NULL)
        return drive->write_runs(drive->self, card, runs, n);
    for (size_t i = 0; i < n && error == 0; i++) {
        size_t at = runs[i].first * LANE_BLOCK;
        error = drive->write(drive->self, at, card + at, runs[i].blocks * LANE_BLOCK);
    }
    return error;
}

static int hand_over(lane_file *lane)
{
    size_t n = join(lane->gathered, lane->gathered_len, lane->runs);
    lane->gathered_len = 0;
    if (n == 0)
        return LANE_DONE;
    int error = write_runs(&lane->drive, lane->card, lane->runs, n);
    return error == 0 ? LANE_DONE : stop(lane, LANE_FILE_WRITE, error);
}

/* There is room for all that comes between two F, since no block comes twice. */
static int gather(lane_file *lane, size_t block)
{
    int answer = lane->gathered_len == GATHERED_MAX ? hand_over(lane) : LANE_DONE;
    size_t i = lane->gathered_len++;
    for (; i > 0 && lane->gathered[i - 1] > block; i--)
        lane->gathered[i] = lane->gathered[i - 1];
    lane->gathered[i] = block;
    return answer;
}

static int flush(lane_file *lane)
{
    int answer = hand_over(lane);
    if (answer != LANE_DONE)
        return answer;
    int error = lane->drive.flush(lane->drive.self);
    return error == 0 ? LANE_DONE : stop(lane, LANE_FILE_FLUSH, error);
}

/* Does for the drive what an advance or a page-out reports. */
static int carry_out(lane_file *lane, lane_report report)
{
    if (report.refusal != LANE_DONE)
        return (int)report.refusal;
    if (report.kind == LANE_F) {
        lane->header = false;
        return flush(lane);
    }
    if (report.kind == LANE_H) {
        lane->marked = false;
        lane->header = true;
    }
    return gather(lane, report.block);
}

static int step(lane_file *lane)
{
    return carry_out(lane, lane_advance(LENT(lane)));
}

static int finish(lane_file *lane)
{
    int answer = LANE_DONE;
    while (answer == LANE_DONE && (lane->marked || lane->header))
        answer = step(lane);
    return answer;
}

static int mark(lane_file *lane)
{
    int answer = (int)lane_snapshot(LENT(lane));
    if (answer == LANE_DONE)
        lane->marked = true;
    return answer;
}

static int commit(lane_file *lane)
{
    int answer = finish(lane);
    if (answer == LANE_DONE)
        answer = mark(lane);
    if (answer == LANE_UNCHANGED)
        return LANE_DONE;
    return answer == LANE_DONE ? finish(lane) : answer;
}

static int page_out(lane_file *lane)
{
    lane_report report = lane_page_out(LENT(lane));
    return report.refusal == LANE_FLUSH_DUE ? step(lane) : carry_out(lane, report);
}

/* Done, the call that was refused is made again. */
static int make_room(lane_file *lane, int refusal)
{
    if (lane->room == LANE_ROOM_REFUSE)
        return refusal;
    if (refusal == LANE_MEMORY_FULL)
        return page_out(lane);
    if (refusal == LANE_AREA_FULL && lane->marked)
        return finish(lane);
    if (refusal == LANE_GENERATION_FULL && lane->room == LANE_ROOM_COMMIT)
        return commit(lane);
    return refusal;
}

int lane_file_key(const lane_file *lane, uint32_t oid, uint32_t *count)
{
    *count = 0;
    if (lane->stopped)
        return LANE_FILE_STOPPED;
    lane_present present = lane_key(LENT(lane), oid);
    *count = present.count;
    return (int)present.refusal;
}

int lane_file_read(const lane_file *lane, uint32_t oid, uint32_t count, void *page)
{
    if (lane->stopped)
        return LANE_FILE_STOPPED;
    return (int)lane_read(LENT(lane), oid, count, page, LANE_BLOCK);
}

int lane_file_write(lane_file *lane, uint32_t oid, uint32_t count, size_t at, const void *bytes, size_t n)
{
    int refusal, answer = lane->stopped ? LANE_FILE_STOPPED : LANE_DONE;
    while (answer == LANE_DONE) {
        refusal = (int)lane_write(LENT(lane), oid, count, at, bytes, n);
        if (refusal == LANE_DONE)
            return LANE_DONE;
        answer = make_room(lane, refusal);
    }
    return answer;
}

int lane_file_rescind(lane_file *lane, uint32_t oid, uint32_t count)
{
    int refusal, answer = lane->stopped ? LANE_FILE_STOPPED : LANE_DONE;
    while (answer == LANE_DONE) {
        refusal = (int)lane_rescind(LENT(lane), oid, count);
        if (refusal == LANE_DONE)
            return LANE_DONE;
        answer = make_room(lane, refusal);
    }
    return answer;
}

int lane_file_snapshot(lane_file *lane)
{
    return lane->stopped ? LANE_FILE_STOPPED : mark(lane);
}

int lane_file_finish(lane_file *lane)
{
    return lane->stopped ? LANE_FILE_STOPPED : finish(lane);
}

int lane_file_forecast(const lane_file *lane, uint32_t *advances)
{
    *advances = 0;
    if (lane->stopped)
        return LANE_FILE_STOPPED;
    lane_foretold foretold = lane_forecast(LENT(lane));
    *advances = foretold.advances;
    return (int)foretold.refusal;
}

int lane_file_commit(lane_file *lane)
{
    return lane->stopped ? LANE_FILE_STOPPED : commit(lane);
}

/* What was paged out before is handed over too, also where nothing is due. */
int lane_file_advance(lane_file *lane, lane_report *report)
{
    const lane_report none = {0};
    lane_report made = none;
    int answer = LANE_FILE_STOPPED;
    if (!lane->stopped) {
        made = lane_advance(LENT(lane));
        answer = carry_out(lane, made);
    }
    if (answer >= 0) {
        int handed = hand_over(lane);
        answer = handed == LANE_DONE ? answer : handed;
    }
    if (report != NULL)
        *report = answer >= 0 ? made : none;
    return answer;
}

int lane_file_settle(lane_file *lane)
{
    int answer = lane->stopped ? LANE_FILE_STOPPED : LANE_DONE;
    while (answer == LANE_DONE)
        answer = step(lane);
    return answer == LANE_NOTHING_DUE ? hand_over(lane) : answer;
}

/* Opening and closing. */

/* The memory is asked for before anything is touched, as a start would. */
static int check(const lane_file_options *o)
{
    if (lane_version() != LANE_VERSION)
        return LANE_FILE_VERSION;
    if ((unsigned)o->room > LANE_ROOM_COMMIT)
        return because(LANE_FILE_SYSTEM, EINVAL);
    if (o->frames != 0 && (o->frames < LANE_FRAMES_MIN || o->frames > LANE_FRAMES_MAX))
        return LANE_MEMORY;
    return LANE_DONE;
}

/* Question 3, before memory is taken for the card. */
static int check_length(uint64_t bytes)
{
    uint64_t blocks = bytes / LANE_BLOCK;
    return bytes % LANE_BLOCK == 0 && blocks >= LANE_CARD_MIN && blocks <= LANE_CARD_MAX ? LANE_DONE : LANE_CARD;
}

/* Maps the card, or reads it whole. */
static int load(lane_file *lane, bool unmapped)
{
    const lane_drive *drive = &lane->drive;
    uint64_t length = drive->length(drive->self);
    if (check_length(length) != LANE_DONE)
        return LANE_CARD;
    lane->card_len = (size_t)length;
    if (!unmapped && drive->map != NULL)
        lane->card = drive->map(drive->self, lane->card_len);
    lane->mapped = lane->card != NULL;
    if (lane->mapped)
        return LANE_DONE;
    lane->card = aligned(lane->card_len);
    if (lane->card == NULL)
        return LANE_FILE_SYSTEM;
    int error = drive->read(drive->self, 0, lane->card, lane->card_len);
    return error == 0 ? LANE_DONE : because(LANE_FILE_READ, error);
}

/* All but the drive. */
static void drop(lane_file *lane)
{
    int error = errno;
    if (lane->mapped)
        lane->drive.unmap(lane->drive.self, lane->card, lane->card_len);
    else
        let_go(lane->card);
    let_go(lane);
    errno = error;
}

static void close_drive(const lane_drive *drive)
{
    int error = errno;
    if (drive->close != NULL)
        drive->close(drive->self);
    errno = error;
}

/* Until the first F a second cut may still find the header before the one that start has shown. */
static int begin(lane_file **lane, const lane_drive *drive, const lane_file_options *o)
{
    lane_file *l = aligned(sizeof *l);
    if (l == NULL)
        return LANE_FILE_SYSTEM;
    l->drive = *drive;
    l->room = o->room;
    l->memory_len = (o->frames != 0 ? o->frames : LANE_FRAMES_MAX) * LANE_BLOCK;
    int answer = load(l, o->unmapped != 0);
    if (answer == LANE_DONE)
        answer = (int)lane_start(LENT(l));
    if (answer == LANE_DONE)
        answer = step(l);
    if (answer == LANE_DONE)
        *lane = l;
    else
        drop(l);
    return answer;
}

int lane_file_open_on(lane_file **lane, const lane_drive *drive, const lane_file_options *options)
{
    const lane_file_options o = chosen(options);
    int answer = check(&o);
    *lane = NULL;
    if (answer == LANE_DONE)
        answer = begin(lane, drive, &o);
    if (answer != LANE_DONE)
        close_drive(drive);
    return answer;
}

int lane_file_open(lane_file **lane, const char *path, const lane_file_options *options)
{
    lane_drive drive;
    int answer = lane_disk_open(&drive, path, options);
    *lane = NULL;
    return answer == LANE_DONE ? lane_file_open_on(lane, &drive, options) : answer;
}

/* The bytes of a card with this geometry; above the limit, where it is, by any number. */
static uint64_t length_of(size_t area, const uint32_t *ranges, size_t ranges_len)
{
    uint64_t blocks = 1 + (area < LANE_CARD_MAX ? area : LANE_CARD_MAX);
    for (size_t i = 1; i < ranges_len && blocks <= LANE_CARD_MAX; i += 2)
        blocks += LANE_RANGE_BLOCKS(ranges[i]);
    return blocks * LANE_BLOCK;
}

/* An empty card in memory; refused, there is none. */
static int format(uint8_t **card, uint64_t length, size_t area, const uint32_t *ranges, size_t ranges_len)
{
    *card = NULL;
    if (check_length(length) != LANE_DONE)
        return LANE_CARD;
    *card = aligned((size_t)length);
    if (*card == NULL)
        return LANE_FILE_SYSTEM;
    return (int)lane_format(*card, (size_t)length, area, ranges, ranges_len);
}

static int put(const lane_drive *drive, const uint8_t *card, uint64_t at, uint64_t end)
{
    int error = 0;
    for (uint64_t next; at < end && error == 0; at = next) {
        next = end - at < AT_A_TIME ? end : at + AT_A_TIME;
        error = drive->write(drive->self, at, card + at, (size_t)(next - at));
    }
    if (error != 0)
        return because(LANE_FILE_WRITE, error);
    error = drive->flush(drive->self);
    return error == 0 ? LANE_DONE : because(LANE_FILE_FLUSH, error);
}

/* Block 0 is cleared first and written last: a start refuses a card whose create was cut. */
static int put_card(const lane_drive *drive, uint8_t *card, uint64_t length)
{
    uint8_t header[LANE_BLOCK];
    memcpy(header, card, LANE_BLOCK);
    memset(card, 0, LANE_BLOCK);
    int answer = put(drive, card, 0, LANE_BLOCK);
    memcpy(card, header, LANE_BLOCK);
    if (answer == LANE_DONE)
        answer = put(drive, card, LANE_BLOCK, length);
    return answer == LANE_DONE ? put(drive, card, 0, LANE_BLOCK) : answer;
}

int lane_file_create_on(lane_file **lane, const lane_drive *drive, size_t area, const uint32_t *ranges,
                        size_t ranges_len, const lane_file_options *options)
{
    const lane_file_options o = chosen(options);
    uint64_t length = drive->length(drive->self);
    uint8_t *card = NULL;
    int answer = check(&o);
    *lane = NULL;
    if (answer == LANE_DONE)
        answer = format(&card, length, area, ranges, ranges_len);
    if (answer == LANE_DONE)
        answer = put_card(drive, card, length);
    let_go(card);
    if (answer == LANE_DONE)
        answer = begin(lane, drive, &o);
    if (answer != LANE_DONE)
        close_drive(drive);
    return answer;
}

/* Takes a place for the card, writes it there and begins. What was newly made is removed before its lock is gone. */
static int create_at(lane_file **lane, const char *path, uint8_t *card, uint64_t length, const lane_file_options *o)
{
    lane_drive drive;
    bool made;
    int answer = create_disk(&drive, path, length, o, &made);
    if (answer != LANE_DONE)
        return answer;
    answer = put_card(&drive, card, length);
    if (answer == LANE_DONE)
        answer = begin(lane, &drive, o);
    if (answer != LANE_DONE && made)
        remove_file(path);
    if (answer != LANE_DONE)
        close_drive(&drive);
    return answer;
}

int lane_file_create(lane_file **lane, const char *path, size_t area, const uint32_t *ranges, size_t ranges_len,
                     const lane_file_options *options)
{
    const lane_file_options o = chosen(options);
    uint64_t length = length_of(area, ranges, ranges_len);
    uint8_t *card = NULL;
    int answer = check(&o);
    *lane = NULL;
    if (answer == LANE_DONE)
        answer = format(&card, length, area, ranges, ranges_len);
    if (answer == LANE_DONE)
        answer = create_at(lane, path, card, length, &o);
    let_go(card);
    return answer;
}

void lane_file_close(lane_file *lane)
{
    if (lane == NULL)
        return;
    const lane_drive drive = lane->drive;
    drop(lane);
    close_drive(&drive);
}
