/*
 * The ready layer on a drive in memory, which keeps a log, fails when it is told to, and knows what a cut may leave.
 * And the disk's own drive, wrapped.
 *
 *   drive FOLDER    uses the folder, which is empty
 */
#define _GNU_SOURCE
#include "check.h"

#include <unistd.h>

enum { WIDE = 24, BYTES = (1 + WIDE + LANE_RANGE_BLOCKS(PAGES)) * LANE_BLOCK, NEVER = 0 };
enum { REPLY = FIRST, TICKET = FIRST + 1, TAG = FIRST + 9, CARS = 5 };

static const uint32_t RANGE[2] = {FIRST, PAGES};

typedef struct {
    size_t length;
    uint8_t now[BYTES];  /* all that was written */
    uint8_t down[BYTES]; /* all that was flushed */
    int writes, flushes, reads, closes;
    int fail_write, fail_flush, fail_read; /* the one that fails, by its number */
    int blocks;                            /* of all writes */
    int several;                           /* calls of write_runs */
    char log[4096];
} memory_drive;

static void note(memory_drive *d, const char *text)
{
    HOLDS(strlen(d->log) + strlen(text) < sizeof d->log);
    strcat(d->log, text);
}

/* What was noted since the last time must be this. */
static void logged(memory_drive *d, const char *wanted)
{
    if (strcmp(d->log, wanted) != 0)
        fprintf(stderr, "drive: logged \"%s\", not \"%s\"\n", d->log, wanted);
    HOLDS(strcmp(d->log, wanted) == 0);
    d->log[0] = '\0';
}

static uint64_t drive_length(void *self)
{
    const memory_drive *d = self;
    return d->length;
}

static int drive_read(void *self, uint64_t at, void *buffer, size_t n)
{
    memory_drive *d = self;
    HOLDS(at % LANE_BLOCK == 0 && n % LANE_BLOCK == 0 && at + n <= d->length);
    memcpy(buffer, d->now + at, n);
    return ++d->reads == d->fail_read ? ENXIO : 0;
}

/* A write that fails has done its first half. */
static int drive_write(void *self, uint64_t at, const void *bytes, size_t n)
{
    memory_drive *d = self;
    char text[64];
    HOLDS(at % LANE_BLOCK == 0 && n % LANE_BLOCK == 0 && n > 0 && at + n <= d->length);
    HOLDS((uintptr_t)bytes % LANE_BLOCK == 0);
    HOLDS(at > 0 || n == LANE_BLOCK);
    snprintf(text, sizeof text, "w%d+%d ", (int)(at / LANE_BLOCK), (int)(n / LANE_BLOCK));
    note(d, text);
    d->blocks += (int)(n / LANE_BLOCK);
    int failed = ++d->writes == d->fail_write;
    if (at > 0 || !failed)
        memcpy(d->now + at, bytes, failed ? n / 2 : n);
    return failed ? ENOSPC : 0;
}

static int drive_flush(void *self)
{
    memory_drive *d = self;
    note(d, "f ");
    if (++d->flushes == d->fail_flush)
        return EIO;
    memcpy(d->down, d->now, sizeof d->now);
    return 0;
}

static int drive_write_runs(void *self, const uint8_t *card, const lane_run *runs, size_t runs_len)
{
    memory_drive *d = self;
    int error = 0;
    d->several++;
    for (size_t i = 0; i < runs_len && error == 0; i++)
        error = drive_write(d, runs[i].first * LANE_BLOCK, card + runs[i].first * LANE_BLOCK,
                            runs[i].blocks * LANE_BLOCK);
    return error;
}

static void drive_close(void *self)
{
    memory_drive *d = self;
    d->closes++;
}

static lane_drive drive_of(memory_drive *d, int with_runs)
{
    lane_drive drive = {.self = d,
                        .length = drive_length,
                        .read = drive_read,
                        .write = drive_write,
                        .flush = drive_flush,
                        .close = drive_close};
    if (with_runs)
        drive.write_runs = drive_write_runs;
    return drive;
}

static memory_drive new_drive(size_t area)
{
    memory_drive d = {0};
    d.length = (1 + area + LANE_RANGE_BLOCKS(PAGES)) * LANE_BLOCK;
    memset(d.now, 0xA5, sizeof d.now);
    memset(d.down, 0xA5, sizeof d.down);
    return d;
}

static lane_file *created(memory_drive *d, size_t area, int with_runs, size_t frames)
{
    const lane_drive drive = drive_of(d, with_runs);
    lane_file_options options = {0};
    lane_file *lane;
    options.frames = frames;
    IS(lane_file_create_on(&lane, &drive, area, RANGE, 2, &options), LANE_DONE);
    return lane;
}

/* What is written and flushed when: neighbours as one, the header by itself, nothing but at F and at an end. */
static void blocks_and_flushes(int with_runs)
{
    memory_drive d = new_drive(AREA);
    lane_file *lane = created(&d, AREA, with_runs, 0);
    logged(&d, "w0+1 f w1+23 f w0+1 f f ");
    IS(fill(lane, FIRST, 1), LANE_DONE);
    IS(lane_file_snapshot(lane), LANE_DONE);
    logged(&d, "");
    IS(lane_file_finish(lane), LANE_DONE);
    logged(&d, "w1+4 f w0+1 f ");
    IS(lane_file_finish(lane), LANE_DONE);
    IS(lane_file_commit(lane), LANE_DONE);
    logged(&d, "");
    IS(lane_file_settle(lane), LANE_DONE);
    logged(&d, "w13+2 ");
    IS(lane_file_settle(lane), LANE_DONE);
    logged(&d, "");
    IS(fill(lane, FIRST, 2), LANE_DONE);
    IS(lane_file_commit(lane), LANE_DONE);
    logged(&d, "w5+3 f w0+1 f ");
    IS(fill(lane, FIRST + 2, 2), LANE_DONE); /* a second commit: what is not home yet goes with it */
    IS(lane_file_commit(lane), LANE_DONE);
    logged(&d, "w8+4 w14+1 f w0+1 f ");
    lane_file_close(lane);
    logged(&d, "");
    IS(d.closes, 1);
    HOLDS((d.several > 0) == with_runs);
}

/* A page-out gathers; an advance hands it over, also where nothing is due. */
static void page_outs(void)
{
    memory_drive d = new_drive(WIDE);
    lane_file *lane = created(&d, WIDE, 0, LANE_FRAMES_MIN);
    d.log[0] = '\0';
    for (uint32_t i = 0; i < 4; i++)
        IS(fill(lane, FIRST + i, 1), LANE_DONE);
    logged(&d, "");
    IS(lane_file_advance(lane, NULL), LANE_NOTHING_DUE);
    HOLDS(d.log[0] == 'w' && strchr(d.log, 'f') == NULL);
    lane_file_close(lane);
}

/* A page-out that meets a header whose flush is due makes that flush. */
static void flush_due(void)
{
    memory_drive d = new_drive(WIDE);
    lane_file *lane = created(&d, WIDE, 0, LANE_FRAMES_MIN);
    lane_report report = {0};
    for (uint32_t i = 0; i < 2; i++)
        IS(fill(lane, FIRST + i, 1), LANE_DONE);
    IS(lane_file_snapshot(lane), LANE_DONE);
    while (report.kind != LANE_H)
        IS(lane_file_advance(lane, &report), LANE_DONE);
    d.log[0] = '\0';
    for (uint32_t i = 0; i < 3; i++)
        IS(fill(lane, FIRST + 2 + i, 1), LANE_DONE);
    logged(&d, "");
    IS(forecast(lane), 1);
    IS(fill(lane, FIRST + 5, 1), LANE_DONE);
    logged(&d, "f ");
    IS(forecast(lane), 0);
    IS(lane_file_finish(lane), LANE_DONE); /* that flush was the snapshot's */
    logged(&d, "");
    lane_file_close(lane);
}

/* A snapshot between H and its F: finish does not take that F for its own. */
static void snapshot_after_header(void)
{
    memory_drive d = new_drive(AREA);
    lane_file *lane = created(&d, AREA, 0, 0);
    lane_report report = {0};
    IS(fill(lane, FIRST, 1), LANE_DONE);
    IS(lane_file_snapshot(lane), LANE_DONE);
    while (report.kind != LANE_H)
        IS(lane_file_advance(lane, &report), LANE_DONE);
    d.log[0] = '\0';
    IS(fill(lane, FIRST, 2), LANE_DONE);
    IS(lane_file_snapshot(lane), LANE_DONE);
    IS(forecast(lane), 9);
    IS(lane_file_finish(lane), LANE_DONE);
    logged(&d, "f w5+3 w13+2 f w0+1 f ");
    lane_file_close(lane);
}

/* Page-outs between the F before H and H, the first of them to block 1: it is not joined with the header. */
static void header_by_itself(void)
{
    enum { EIGHT = 8 };
    memory_drive d = new_drive(WIDE);
    lane_file *lane = created(&d, WIDE, 0, EIGHT);
    lane_report report = {0};
    const uint32_t last[] = {3, 10, 3};
    for (uint32_t commits = 0, next = 0; commits < 3; commits++, next %= PAGES) {
        for (; next < last[commits]; next++)
            IS(fill(lane, FIRST + next, 1), LANE_DONE);
        IS(lane_file_commit(lane), LANE_DONE);
    }
    IS(fill(lane, FIRST, 2), LANE_DONE);
    IS(lane_file_snapshot(lane), LANE_DONE);
    while (report.kind != LANE_F)
        IS(lane_file_advance(lane, &report), LANE_DONE);
    for (uint32_t i = 0; i < EIGHT + 1; i++)
        IS(fill(lane, FIRST + i, 3), LANE_DONE);
    d.log[0] = '\0';
    IS(lane_file_advance(lane, &report), LANE_DONE);
    IS(report.kind, LANE_H);
    logged(&d, "w0+1 w1+1 ");
    lane_file_close(lane);
}

/* Finish makes so many block writes and flushes as were foretold, and the forecast none. */
static void as_foretold(memory_drive *d, lane_file *lane, int wanted)
{
    int made = d->blocks + d->flushes + d->reads;
    IS(forecast(lane), wanted);
    IS(d->blocks + d->flushes + d->reads, made);
    IS(lane_file_finish(lane), LANE_DONE);
    IS(d->blocks + d->flushes + d->reads, made + wanted);
    IS(forecast(lane), 0);
}

/* Commits one after the other: a page and its pot; two pages and the pot, with two frames to bring home; with all
   home a page that is rescinded again; the next one, which takes home the pot of that page and not the page. */
static void foretold(int with_runs)
{
    memory_drive d = new_drive(WIDE);
    lane_file *lane = created(&d, WIDE, with_runs, 0);
    as_foretold(&d, lane, 0);
    IS(fill(lane, FIRST, 1), LANE_DONE);
    as_foretold(&d, lane, 0); /* none is pending */
    IS(lane_file_snapshot(lane), LANE_DONE);
    as_foretold(&d, lane, 7);
    IS(fill(lane, FIRST, 2), LANE_DONE);
    IS(fill(lane, FIRST + 1, 2), LANE_DONE);
    IS(lane_file_snapshot(lane), LANE_DONE);
    as_foretold(&d, lane, 10);
    IS(lane_file_settle(lane), LANE_DONE);
    IS(fill(lane, FIRST + 2, 3), LANE_DONE);
    IS(lane_file_rescind(lane, FIRST + 2, 0), LANE_DONE);
    IS(lane_file_snapshot(lane), LANE_DONE);
    as_foretold(&d, lane, 7);
    IS(fill(lane, FIRST + 3, 4), LANE_DONE);
    IS(lane_file_snapshot(lane), LANE_DONE);
    as_foretold(&d, lane, 8);
    lane_file_close(lane);
}

/* Before the snapshot two pages and the pot are paged out, and the pot changes again: four frames wait. */
static void foretold_after_page_outs(void)
{
    memory_drive d = new_drive(WIDE);
    lane_file *lane = created(&d, WIDE, 0, LANE_FRAMES_MIN);
    for (uint32_t i = 0; i < 5; i++)
        IS(fill(lane, FIRST + i, 1), LANE_DONE);
    IS(lane_file_advance(lane, NULL), LANE_NOTHING_DUE); /* hands over what was paged out */
    IS(lane_file_snapshot(lane), LANE_DONE);
    as_foretold(&d, lane, 9);
    lane_file_close(lane);
}

/* A write that pages out frames of the snapshot takes one off for each; of frames that changed since, none. */
static void foretold_over_page_outs(void)
{
    memory_drive d = new_drive(WIDE);
    lane_file *lane = created(&d, WIDE, 0, LANE_FRAMES_MIN);
    IS(fill(lane, FIRST, 1), LANE_DONE);
    IS(lane_file_snapshot(lane), LANE_DONE);
    IS(forecast(lane), 7);
    for (uint32_t i = 1; i < 4; i++) {
        IS(fill(lane, FIRST + i, 1), LANE_DONE);
        IS(forecast(lane), 8 - (int)i);
    }
    IS(fill(lane, FIRST + 4, 1), LANE_DONE);
    IS(forecast(lane), 5);
    IS(lane_file_advance(lane, NULL), LANE_DONE);
    as_foretold(&d, lane, 4);
    lane_file_close(lane);
}

/* A short day: cars whose reply and ticket change together, a tag that is rescinded, little memory. Gives the first
   answer that is not done, and the last car that is safe. */
static int day(lane_file *lane, int *safe)
{
    uint32_t count = 0;
    for (int car = 1; car <= CARS; car++) {
        int answer = fill(lane, REPLY, (uint8_t)car);
        for (uint32_t i = 2; i < 6 && answer == LANE_DONE; i++)
            answer = fill(lane, FIRST + i, (uint8_t)car);
        if (answer == LANE_DONE && car % 2 == 0)
            answer = lane_file_key(lane, TAG, &count);
        if (answer == LANE_DONE && car % 2 == 0)
            answer = lane_file_rescind(lane, TAG, count);
        if (answer == LANE_DONE)
            answer = fill(lane, TICKET, (uint8_t)car);
        if (answer == LANE_DONE)
            answer = lane_file_commit(lane);
        if (answer == LANE_DONE)
            *safe = car;
        if (answer == LANE_DONE && car == 3)
            answer = lane_file_settle(lane);
        if (answer != LANE_DONE)
            return answer;
    }
    return lane_file_settle(lane);
}

/* A start from these bytes shows the car that is safe, or the one that was under way. */
static void shows(const uint8_t *bytes, size_t length, int safe)
{
    static memory_drive d;
    const lane_drive drive = drive_of(&d, 0);
    lane_file *lane;
    memset(&d, 0, sizeof d);
    d.length = length;
    memcpy(d.now, bytes, length);
    IS(lane_file_open_on(&lane, &drive, NULL), LANE_DONE);
    logged(&d, "f ");
    int reply = shown(lane, REPLY);
    IS(shown(lane, TICKET), reply);
    HOLDS(reply == safe || reply == safe + 1);
    IS(day(lane, &safe), LANE_DONE);
    IS(shown(lane, REPLY), CARS);
    lane_file_close(lane);
}

/* What a cut may leave: all that was written, what was flushed, and every second block of either. */
static void restarts(const memory_drive *d, int safe)
{
    static uint8_t left[BYTES];
    for (int way = 0; way < 4; way++) {
        for (size_t block = 0; block < d->length / LANE_BLOCK; block++) {
            int new = way == 0 || (way > 1 && (size_t)way % 2 == block % 2);
            memcpy(left + block * LANE_BLOCK, (new ? d->now : d->down) + block * LANE_BLOCK, LANE_BLOCK);
        }
        shows(left, d->length, safe);
    }
}

/* A create that failed leaves no card, or an empty one whose last flush was not made. */
static void no_card_or_empty(const memory_drive *d)
{
    static memory_drive again;
    const lane_drive drive = drive_of(&again, 0);
    lane_file *lane;
    again = *d;
    again.fail_write = again.fail_flush = NEVER;
    int answer = lane_file_open_on(&lane, &drive, NULL);
    HOLDS(answer == LANE_DONE ? shown(lane, REPLY) == 0 : answer == LANE_LAYOUT);
    lane_file_close(lane);
}

/* Runs the day on a drive that fails once; gives 0 when nothing failed. */
static int failing_day(memory_drive *d, int with_runs, int wanted, int error)
{
    const lane_drive drive = drive_of(d, with_runs);
    lane_file_options options = {0};
    lane_file *lane;
    int safe = 0;
    options.frames = LANE_FRAMES_MIN;
    int answer = lane_file_create_on(&lane, &drive, WIDE, RANGE, 2, &options);
    if (answer != LANE_DONE) {
        IS(answer, wanted);
        IS(errno, error);
        HOLDS(lane == NULL && d->closes == 1);
        no_card_or_empty(d);
        return 1;
    }
    errno = 0;
    answer = day(lane, &safe);
    int made = d->writes + d->flushes;
    if (answer != LANE_DONE) {
        IS(answer, wanted);
        IS(errno, error);
        is_stopped(lane);
    }
    lane_file_close(lane);
    IS(d->writes + d->flushes, made);
    IS(d->closes, 1);
    restarts(d, safe);
    return answer != LANE_DONE;
}

static void every_failure(int with_runs)
{
    static memory_drive d;
    int n = 0, failed = 1;
    while (failed) {
        d = new_drive(WIDE);
        d.fail_write = ++n;
        failed = failing_day(&d, with_runs, LANE_FILE_WRITE, ENOSPC);
    }
    IS(n, d.writes + 1);
    int writes = n - 1;
    for (n = 0, failed = 1; failed;) {
        d = new_drive(WIDE);
        d.fail_flush = ++n;
        failed = failing_day(&d, with_runs, LANE_FILE_FLUSH, EIO);
    }
    IS(n, d.flushes + 1);
    printf("drive: a day with each of %d writes and %d flushes failed\n", writes, n - 1);
}

static void read_fails(void)
{
    memory_drive d = new_drive(AREA);
    const lane_drive drive = drive_of(&d, 0);
    lane_file *lane = created(&d, AREA, 0, 0);
    lane_file_close(lane);
    d.fail_read = d.reads + 1;
    IS(lane_file_open_on(&lane, &drive, NULL), LANE_FILE_READ);
    IS(errno, ENXIO);
    HOLDS(lane == NULL && d.closes == 2);
}

/* A drive is the lane's from the call on, and closed where it is refused. */
static void refused_drives(void)
{
    memory_drive d = new_drive(AREA);
    const lane_drive drive = drive_of(&d, 0);
    lane_file_options options = {0};
    lane_file *lane;
    IS(lane_file_create_on(&lane, &drive, AREA + 1, RANGE, 2, NULL), LANE_GEOMETRY);
    options.frames = LANE_FRAMES_MAX + 1;
    IS(lane_file_create_on(&lane, &drive, AREA, RANGE, 2, &options), LANE_MEMORY);
    IS(lane_file_open_on(&lane, &drive, &options), LANE_MEMORY);
    IS(lane_file_open_on(&lane, &drive, NULL), LANE_LAYOUT);
    d.length -= 1;
    IS(lane_file_create_on(&lane, &drive, AREA, RANGE, 2, NULL), LANE_CARD);
    IS(lane_file_open_on(&lane, &drive, NULL), LANE_CARD);
    IS(d.closes, 6);
    logged(&d, "");
}

/* A drive of the program's own around the disk's: what it is asked for is counted. */
typedef struct {
    lane_drive below;
    int writes, flushes;
} counter;

static uint64_t counted_length(void *self)
{
    const counter *c = self;
    return c->below.length(c->below.self);
}

static int counted_read(void *self, uint64_t at, void *buffer, size_t n)
{
    const counter *c = self;
    return c->below.read(c->below.self, at, buffer, n);
}

static int counted_write(void *self, uint64_t at, const void *bytes, size_t n)
{
    counter *c = self;
    c->writes++;
    return c->below.write(c->below.self, at, bytes, n);
}

static int counted_flush(void *self)
{
    counter *c = self;
    c->flushes++;
    return c->below.flush(c->below.self);
}

static void counted_close(void *self)
{
    const counter *c = self;
    c->below.close(c->below.self);
}

static void wrapped_disk(const char *path)
{
    counter c = {0};
    const lane_drive drive = {.self = &c,
                              .length = counted_length,
                              .read = counted_read,
                              .write = counted_write,
                              .flush = counted_flush,
                              .close = counted_close};
    lane_file_options options = {0};
    lane_file *lane;
    int safe = 0;
    options.promise = LANE_PROMISE_KILL;
    IS(lane_disk_create(&c.below, path, BYTES, &options), LANE_DONE);
    IS(lane_file_create_on(&lane, &drive, WIDE, RANGE, 2, &options), LANE_DONE);
    IS(c.writes, 3);
    IS(c.flushes, 4);
    IS(day(lane, &safe), LANE_DONE);
    lane_file_close(lane);
    IS(lane_disk_create(&c.below, path, BYTES, &options), LANE_FILE_EXISTS);
    HOLDS(c.below.self == NULL);
    IS(lane_disk_open(&c.below, path, &options), LANE_DONE);
    c.writes = c.flushes = 0;
    IS(lane_file_open_on(&lane, &drive, &options), LANE_DONE);
    IS(c.writes, 0);
    IS(c.flushes, 1);
    IS(shown(lane, TICKET), CARS);
    lane_file_close(lane);
    IS(lane_file_open(&lane, path, &options), LANE_DONE); /* let go of */
    lane_file_close(lane);
}

int main(int argc, char **argv)
{
    char path[4096];
    HOLDS(argc == 2);
    snprintf(path, sizeof path, "%s/card", argv[1]);
    blocks_and_flushes(0);
    blocks_and_flushes(1);
    page_outs();
    flush_due();
    snapshot_after_header();
    header_by_itself();
    foretold(0);
    foretold(1);
    foretold_after_page_outs();
    foretold_over_page_outs();
    every_failure(0);
    every_failure(1);
    read_fails();
    refused_drives();
    unlink(path);
    wrapped_disk(path);
    return 0;
}
