/*
 * A toll lane's controller. The bank's reply and the ticket of a car are two pages that change
 * together: should they come apart, the last car's reply beside the new car's ticket, the barrier
 * lifts for a car that has not paid. Both go into one snapshot, and the barrier lifts once no cut
 * can lose it.
 *
 *   passage IMAGE format             makes an empty card of a file or a block device, whatever it holds
 *   passage IMAGE pass [--kill N]    lets those of the cars 1 to 3 pass that have not yet, saying
 *                                    what goes down; killed, the N-th block or flush is cut
 *   passage IMAGE show               prints what an open finds; fails if reply and ticket differ
 *
 * A file is for trying it out. A device has physical and logical sectors of 512 bytes.
 */
#include "lane_file.h"

#include <errno.h>
#include <signal.h>
#include <stdbool.h>
#include <stdio.h>
#include <stdlib.h>
#include <string.h>

/* OIDs: the car's reply and ticket, the car that the camera has seen last, tags with their balance. */
enum { REPLY = 100, TICKET = 101, LOG = 102, TAGS = 103, STOLEN = 104, PAGES = 10 };
enum { CARS = 3, TOP_UPS = 3 };

/* Half of it, 6 blocks, holds a passage whole: log, pot, reply, ticket, directory, trailer. */
enum { AREA = 12 };

/* With the least memory room has to be made for a write at times. No commit is made for it: did half
   the area not hold a passage, the write would be refused. */
static lane_file_options options = {.frames = LANE_FRAMES_MIN, .replace = 1};

static lane_drive disk;
static size_t left = SIZE_MAX; /* blocks and flushes until it is cut */

static _Noreturn void fail(const char *what, const char *why)
{
    fprintf(stderr, "passage: %s: %s\n", what, why);
    exit(1);
}

static void done(const char *call, int answer)
{
    if (answer <= LANE_FILE_READ && answer >= LANE_FILE_SYSTEM)
        fail(lane_file_text(answer), strerror(errno));
    if (answer != LANE_DONE)
        fail(call, lane_file_text(answer));
}

static _Noreturn void die(void)
{
    fflush(stdout);
    raise(SIGKILL);
    abort();
}

/* The disk's write, but that it says what goes down. */
static int put(void *self, uint64_t at, const void *bytes, size_t n)
{
    size_t first = at / LANE_BLOCK, blocks = n / LANE_BLOCK;
    int error = disk.write(self, at, bytes, n);
    if (error == 0 && blocks == 1)
        printf("block %zu\n", first);
    if (error == 0 && blocks > 1)
        printf("blocks %zu to %zu\n", first, first + blocks - 1);
    return error;
}

/* Dies as in a power cut. Of the write some blocks are down, and the next one is torn, with its first
   half new. Block 0 is still old. */
static int cut(void *self, uint64_t at, const uint8_t *bytes)
{
    static _Alignas(LANE_BLOCK) uint8_t torn[LANE_BLOCK];
    size_t down = left * LANE_BLOCK;
    int error = 0;
    if (at == 0) {
        puts("block 0 not made");
        die();
    }
    if (down > 0)
        error = put(self, at, bytes, down);
    if (error == 0)
        error = disk.read(self, at + down, torn, sizeof torn);
    memcpy(torn, bytes + down, sizeof torn / 2);
    if (error == 0)
        error = disk.write(self, at + down, torn, sizeof torn);
    if (error != 0)
        return error;
    printf("block %zu torn\n", (size_t)at / LANE_BLOCK + left);
    die();
}

static int write_or_cut(void *self, uint64_t at, const void *bytes, size_t n)
{
    size_t blocks = n / LANE_BLOCK;
    if (left < blocks)
        return cut(self, at, bytes);
    left -= blocks;
    return put(self, at, bytes, n);
}

static int flush_or_cut(void *self)
{
    if (left-- == 0) {
        puts("flush not made");
        die();
    }
    int error = disk.flush(self);
    if (error == 0)
        puts("flush");
    return error;
}

/* It is asked that the card survives a power cut. Where that cannot be promised this says why, and the
   call is made again without. */
static bool unkept(int answer)
{
    if (answer > LANE_FILE_PROMISE_DIRECT || answer < LANE_FILE_PROMISE_FILE_SYSTEM)
        return false;
    fprintf(stderr, "passage: %s: safe at a kill, not at a power cut\n", lane_file_text(answer));
    options.promise = LANE_PROMISE_KILL;
    return true;
}

static lane_file *create(const char *image)
{
    const uint32_t range[2] = {REPLY, PAGES};
    lane_file *lane;
    int answer;
    do
        answer = lane_file_create(&lane, image, AREA, range, 2, &options);
    while (unkept(answer));
    done("create", answer);
    return lane;
}

/* Told, the drive is the disk's but for what it says, and for the cut. */
static lane_file *open_card(const char *image, bool told)
{
    lane_file *lane;
    int answer;
    do
        answer = lane_disk_open(&disk, image, &options);
    while (unkept(answer));
    done("open", answer);
    lane_drive drive = disk;
    if (told) {
        drive.write = write_or_cut;
        drive.flush = flush_or_cut;
        drive.write_runs = NULL;
    }
    done("open", lane_file_open_on(&lane, &drive, &options));
    return lane;
}

static uint32_t key(const lane_file *lane, uint32_t oid)
{
    uint32_t count;
    done("key", lane_file_key(lane, oid, &count));
    return count;
}

/* A page has its number in every byte, so that a torn one would be seen. */
static uint8_t number(const lane_file *lane, uint32_t oid)
{
    uint8_t page[LANE_BLOCK];
    done("read", lane_file_read(lane, oid, key(lane, oid), page));
    if (memcmp(page, page + 1, sizeof page - 1) != 0)
        fail("read", "a page is torn");
    return page[0];
}

static void write_page(lane_file *lane, uint32_t oid, int n)
{
    uint8_t page[LANE_BLOCK];
    memset(page, n, sizeof page);
    done("write", lane_file_write(lane, oid, key(lane, oid), 0, page, sizeof page));
}

/* Whoever kept a key to the page has an old one from here on. */
static void rescind(lane_file *lane, uint32_t oid)
{
    uint8_t page[LANE_BLOCK];
    uint32_t old = key(lane, oid);
    done("rescind", lane_file_rescind(lane, oid, old));
    if (lane_file_read(lane, oid, old, page) != LANE_COUNT)
        fail("rescind", "the old key still opens it");
    if (number(lane, oid) != 0)
        fail("rescind", "the new key finds no zeros");
    printf("tag %u rescinded: old key refused %d, new key reads zeros\n", oid, LANE_COUNT);
}

/* The office sends balances of tags. The log is committed before them, and they before the next passage
   begins: each has half the area for itself. */
static void top_up(lane_file *lane)
{
    puts("top-up");
    done("commit", lane_file_commit(lane));
    for (uint32_t tag = TAGS; tag < TAGS + TOP_UPS; tag++)
        write_page(lane, tag, 50);
    done("commit", lane_file_commit(lane));
}

static void passage(lane_file *lane, int car)
{
    printf("car %d\n", car);
    if (number(lane, LOG) != car)
        write_page(lane, LOG, car);
    if (car == CARS)
        rescind(lane, STOLEN); /* reported with this car, and kept with it */
    write_page(lane, REPLY, car);
    write_page(lane, TICKET, car);
    done("snapshot", lane_file_snapshot(lane));
    puts("snapshot");
    write_page(lane, LOG, car + 1); /* the camera does not wait: this is the next snapshot's */
    printf("log %d\n", car + 1);
    done("finish", lane_file_finish(lane));
    printf("barrier %d\n", car);
}

/* What an open shows no cut takes away: that car has paid. Whether it still stands there the lane's
   sensor knows. At last the lane is idle, and brings the pages home. */
static void pass(lane_file *lane)
{
    int car = number(lane, REPLY);
    if (car > 0)
        printf("paid %d\n", car);
    while (car < CARS) {
        if (++car == CARS)
            top_up(lane);
        passage(lane, car);
    }
    done("settle", lane_file_settle(lane));
}

static void show(const lane_file *lane)
{
    int reply = number(lane, REPLY), ticket = number(lane, TICKET), log = number(lane, LOG);
    printf("reply %d, ticket %d, log %d, ", reply, ticket, log);
    printf("tag %d: %d, count %u\n", STOLEN, number(lane, STOLEN), key(lane, STOLEN));
    if (reply != ticket)
        fail("show", "reply and ticket are of two cars");
}

int main(int argc, char **argv)
{
    const char *call = argc > 2 ? argv[2] : "";
    bool killed = argc == 5 && strcmp(argv[3], "--kill") == 0;
    lane_file *lane = NULL;
    if (argc == 3 && strcmp(call, "format") == 0) {
        lane = create(argv[1]);
    } else if (argc == 3 && strcmp(call, "show") == 0) {
        lane = open_card(argv[1], false);
        show(lane);
    } else if ((argc == 3 || killed) && strcmp(call, "pass") == 0) {
        if (killed && (left = strtoul(argv[4], NULL, 10)) == 0)
            fail(argv[4], "not a number above 0");
        if (killed)
            left--;
        lane = open_card(argv[1], true);
        pass(lane);
    } else {
        fail("usage", "IMAGE format | IMAGE pass [--kill N] | IMAGE show");
    }
    lane_file_close(lane);
    return 0;
}
