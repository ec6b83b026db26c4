/*
 * A lane that is ready to use: the proved calls of lane.h with the drive below them, for POSIX systems and
 * Linux first. It keeps card, memory frames and record, brings every block to the drive and flushes it as
 * lane.h asks, and makes room where a write finds none. Link liblane_file.a and liblane.a:
 *
 *     gcc -std=c11 program.c $(pkg-config --cflags --libs lane-file)
 *
 * A whole program, run with the name of a file for the card:
 *
 *   #include <errno.h>
 *   #include <stdio.h>
 *   #include <lane_file.h>
 *
 *   int main(int argc, char **argv)
 *   {
 *       const char *path = argc > 1 ? argv[1] : "trial.card";
 *       const lane_file_options options = {.promise = LANE_PROMISE_KILL}; // for trying out; a lane takes NULL
 *       const uint32_t range[2] = {100, 10};                              // ten pages, from OID 100 on
 *       lane_file *lane = NULL;
 *       uint32_t count = 0;
 *       int answer = lane_file_open(&lane, path, &options);
 *       if (answer == LANE_FILE_SYSTEM && errno == ENOENT)
 *           answer = lane_file_create(&lane, path, 12, range, 2, &options);
 *       if (answer == LANE_DONE)
 *           answer = lane_file_key(lane, 100, &count);
 *       if (answer == LANE_DONE)
 *           answer = lane_file_write(lane, 100, count, 0, "paid", 4);
 *       if (answer == LANE_DONE)
 *           answer = lane_file_commit(lane);
 *       puts(lane_file_text(answer)); // "done": no cut takes it away
 *       lane_file_close(lane);
 *       return answer != LANE_DONE;
 *   }
 *
 * LANE_DONE, 0, is done. Above 0 stands the number of the question that was answered "no" (lane.h): the call
 * changed nothing that a read shows. Below 0 stands an answer of this layer, errno holding the system's reason
 * where there is one. lane_file_text has a sentence for each.
 *
 * What is kept. lane_file_commit, and lane_file_finish after lane_file_snapshot, are done once no cut takes
 * away what they keep. NOTHING IS COMMITTED BY lane_file_close: what was written since the last commit is lost
 * there, as at a cut. What an open shows no later cut takes away.
 *
 * What is stopped. After a write that failed or was short, or a flush that failed, the card in memory is ahead
 * of the drive. The call answers LANE_FILE_WRITE or LANE_FILE_FLUSH, and every later call LANE_FILE_STOPPED,
 * key and read too; nothing is written or flushed any more. The program closes the lane and opens it anew: that
 * shows the last commit that was done, or the one that was under way.
 *
 * How blocks go down. A block that an advance or a page-out reports is gathered. At F all that is gathered goes
 * to the drive, neighbours as one write and block 0 always by itself; then the drive is flushed, and only then
 * the next call is made. lane_file_advance and lane_file_settle hand over at their end too, without a flush. No
 * other block is ever written.
 *
 * A mapped card. The disk's card is a private mapping of the file or device, so that an open reads no more
 * than it looks at. As with any mapped file, a device block that cannot be read then is a SIGBUS in the call
 * that meets it, and so is a file that another program cuts short. With the option `unmapped` the whole card is
 * read at open, and a block that cannot be read gives LANE_FILE_READ.
 *
 * What the caller owes:
 * - Every pointer is valid for its length, and not null for length 0 either. Options may be NULL.
 * - A lane that was opened is closed once, and not used after.
 * - Nobody else writes file or device meanwhile. The lock is advisory (flock): it keeps out other lanes, and no
 *   program that does not ask for it.
 * - fork: no thread forks during a call of a lane, since a block may be on its way from memory to the device
 *   (open(2), O_DIRECT). Afterwards the lane is the parent's. The child may call lane_file_close, and nothing
 *   else; until it does so, ends or calls exec, it holds the lock too.
 * - The device owes what lane.h says: block 0 whole at a cut, and a flush that is done has put down all before.
 *   The promise, an option, says how far this is asked.
 *
 * Threads: lanes are independent of each other; there is no global state. One lane is used by one call at a
 * time, from any thread, but that lane_file_key, lane_file_read and lane_file_forecast, which take it const, may
 * run beside each other. No call is for a signal handler. A call takes the stack that lane.h names for the
 * library's, and a little more.
 */
#ifndef LANE_FILE_INCLUDED
#define LANE_FILE_INCLUDED

#include "lane.h"

#ifdef __cplusplus
extern "C" {
#endif

/* The answers of this layer. */
enum lane_file_answer {
    LANE_FILE_STOPPED = -1,             /* a write or a flush failed before: close the lane and open it anew */
    LANE_FILE_BUSY = -2,                /* another lane, here or elsewhere, has it open; a device that is mounted */
    LANE_FILE_EXISTS = -3,              /* create, and something is there: name another, or `replace` it */
    LANE_FILE_LENGTH = -4,              /* not as long as its header says: cut short, or not all of a copy */
    LANE_FILE_PROMISE_DIRECT = -5,      /* no O_DIRECT for single blocks; only LANE_PROMISE_KILL can be had */
    LANE_FILE_PROMISE_SECTOR = -6,      /* a sector is not 512 bytes: another device, or vouch for this one */
    LANE_FILE_PROMISE_DEVICE = -7,      /* the block device below cannot be told: vouch for it, or another */
    LANE_FILE_PROMISE_FILE_SYSTEM = -8, /* not known to write in place: vouch for it, or another */
    LANE_FILE_READ = -9,                /* the drive was not read; errno */
    LANE_FILE_WRITE = -10,              /* the drive was not written; errno; the lane is stopped */
    LANE_FILE_FLUSH = -11,              /* the drive was not flushed; errno; the lane is stopped */
    LANE_FILE_SYSTEM = -12,             /* the system refused something else, such as to open a file; errno */
    LANE_FILE_VERSION = -13             /* liblane.a is not of lane.h's version: no answer could be trusted */
};

/* A sentence for every answer, above 0 that of lane_refusal_text. It needs no freeing. */
const char *lane_file_text(int answer);

/* What a write or a rescind does that finds no room. */
enum lane_file_room {
    LANE_ROOM_MAKE = 0,   /* 14: pages out; 13: finishes the pending snapshot. 12 is refused: what belongs
                             together is never committed in parts */
    LANE_ROOM_REFUSE = 1, /* 12, 13 and 14 are the caller's */
    LANE_ROOM_COMMIT = 2  /* as MAKE, and 12: commits. Only where each change may be kept without the next */
};

/* What the disk is asked for, before it is used, of what a device owes at a power cut. */
enum lane_file_promise {
    LANE_PROMISE_ASKED = 0,   /* O_DIRECT, a known block device with physical and logical sector 512 and, for a
                                 file, a file system that writes in place: ext2, ext3, ext4, xfs, vfat, exfat */
    LANE_PROMISE_VOUCHED = 1, /* O_DIRECT; the caller vouches for device and file system */
    LANE_PROMISE_KILL = 2     /* nothing: O_DIRECT where there is such. Safe at a kill of the program, not at a
                                 power cut */
};

/* How a lane is opened or created. Zeros, and NULL in place of the options, are the defaults. */
typedef struct {
    size_t frames;                  /* of memory, 4 to 64; 0 means 64 */
    enum lane_file_room room;
    enum lane_file_promise promise; /* of the disk; a drive of the program's own is not asked */
    int unmapped;                   /* not 0: the card is a buffer that is read whole, not a mapping */
    int replace;                    /* not 0: create takes what is there, and all its pages are gone */
} lane_file_options;

/* A lane that is open. */
typedef struct lane_file lane_file;

/*
 * Opening. Done, *lane is a lane to be closed; else it is NULL, and nothing is left open.
 */

/* Opens the card in a file or on a block device: starts, and flushes once (the first F), so that what is shown
   is safe. Writes no block. A file is exactly as long as its card; a device may be longer.
   Answers LANE_MEMORY 1 (frames), LANE_CARD 3 to LANE_DIRECTORY 8 (LANE_LAYOUT 4: not formatted), or
   LANE_FILE_VERSION, _SYSTEM (ENOENT: not there; EINVAL: an option; ENODEV: neither file nor block device;
   ENOMEM), _BUSY, _PROMISE_.., _LENGTH, _READ, _FLUSH. */
int lane_file_open(lane_file **lane, const char *path, const lane_file_options *options);

/* Makes an empty card, by lane_format's `area` and `ranges` (first OID and number of pages of each range in turn,
   so ranges_len is twice their number), writes all of it in three steps with a flush after each, and opens it.
   The file is made exactly as long as the card, and its folder is synced. Without `replace` it must not be there
   or be empty, and a device's blocks that the card takes must be zeros. Refused LANE_CARD 3 or LANE_GEOMETRY 5,
   nothing is touched. A file that was newly made is removed if create fails.
   Answers LANE_MEMORY 1, LANE_CARD 3, LANE_GEOMETRY 5, or LANE_FILE_VERSION, _SYSTEM, _BUSY, _PROMISE_..,
   _EXISTS, _LENGTH (the device is shorter than the card), _READ, _WRITE, _FLUSH. */
int lane_file_create(lane_file **lane, const char *path, size_t area, const uint32_t *ranges, size_t ranges_len,
                     const lane_file_options *options);

/* Closes a lane, stopped or not; NULL does nothing. Writes and flushes nothing. */
void lane_file_close(lane_file *lane);

/*
 * Pages. Each answers LANE_FILE_STOPPED on a stopped lane.
 */

/* Gives the present count of an OID, the two being the key that the next three calls take; refused, 0.
   Answers LANE_GAP 21, LANE_OID 9. */
int lane_file_key(const lane_file *lane, uint32_t oid, uint32_t *count);

/* Fills 512 bytes with the page.
   Answers LANE_GAP 21, LANE_OID 9, LANE_COUNT 10. */
int lane_file_read(const lane_file *lane, uint32_t oid, uint32_t count, void *page);

/* Puts n bytes into the page at offset `at`. No bytes change nothing.
   Answers LANE_GAP 21, LANE_OID 9, LANE_COUNT 10, LANE_LENGTH 11, LANE_GENERATION_FULL 12 (but with
   LANE_ROOM_COMMIT), and with LANE_ROOM_REFUSE LANE_AREA_FULL 13 and LANE_MEMORY_FULL 14; with LANE_ROOM_COMMIT
   also LANE_COMMIT_END 18. LANE_FILE_WRITE or _FLUSH where room was to be made. */
int lane_file_write(lane_file *lane, uint32_t oid, uint32_t count, size_t at, const void *bytes, size_t n);

/* Empties the page, which then reads as zeros, and adds 1 to its count, so that every key to it is old. WIPES
   NOTHING: its old bytes may stay on the card.
   Answers LANE_GAP 21, LANE_OID 9, LANE_COUNT 10, LANE_COUNT_END 15, and for room what lane_file_write answers. */
int lane_file_rescind(lane_file *lane, uint32_t oid, uint32_t count);

/*
 * Commits. Each answers LANE_FILE_STOPPED on a stopped lane, and all but lane_file_snapshot and lane_file_forecast
 * LANE_FILE_WRITE or LANE_FILE_FLUSH where the drive fails.
 */

/* Commits all that has changed: finishes what is pending, marks, and finishes that. Done, no cut takes it away;
   done too where nothing has changed.
   Answers LANE_COMMIT_END 18. */
int lane_file_commit(lane_file *lane);

/* Marks all pages and counts as they are, to be kept; writes nothing. What is written afterwards is the next
   snapshot's.
   Answers LANE_PENDING 16 (finish first), LANE_UNCHANGED 17, LANE_COMMIT_END 18. */
int lane_file_snapshot(lane_file *lane);

/* Makes the last snapshot safe: advances until the F after its H. Nothing pending, it does nothing. */
int lane_file_finish(lane_file *lane);

/* Gives how many block writes and flushes are left until the last snapshot is safe, for a display: so many as
   lane_file_finish then makes, or lane_file_advance in so many calls. 0 where it is safe, or there was none since the
   open; stopped, 0 too. Changes nothing.
   A write or a rescind leaves the number as it is, unless it makes room: what it makes then may take from it, down
   to 0. A block that was paged out is counted no more, though it may go to the drive with the next ones. */
int lane_file_forecast(const lane_file *lane, uint32_t *advances);

/* One step of what is due, for a lane that has a moment: one block, handed to the drive at once, or one flush.
   *report says which, if report is not NULL; kind LANE_REFUSED unless the answer is LANE_DONE.
   Answers LANE_NOTHING_DUE 20. */
int lane_file_advance(lane_file *lane, lane_report *report);

/* All that is due, for a lane that is idle: a pending snapshot is made safe, and its pages are brought home, but
   for empty ones, which are passed over. */
int lane_file_settle(lane_file *lane);

/*
 * Drives. A program may put a drive of its own below a lane, or wrap the disk's, to count, to cut or to fail.
 */

/* Blocks that are neighbours. */
typedef struct {
    size_t first;
    size_t blocks; /* at least 1 */
} lane_run;

/*
 * A drive: what it is, and its operations. Each answers 0 when done, else an error number as errno.h has them.
 * Places and lengths are whole blocks in bytes, within the card; memory that is lent is aligned to 512 bytes.
 * Those that may be NULL are, in a struct that was zeros.
 *
 * What a drive owes: a read gives the bytes that were written last, flushed or not. A write is whole, or fails;
 * its blocks may go down in any order. A flush that is done has put down all that was written before. At a cut
 * block 0 is whole, old or new, and a block that was not written since the last flush stands as it was.
 */
typedef struct {
    void *self; /* handed to each operation */
    uint64_t (*length)(void *self); /* bytes of the card; always the same */
    int (*read)(void *self, uint64_t at, void *buffer, size_t n);
    int (*write)(void *self, uint64_t at, const void *bytes, size_t n);
    int (*flush)(void *self);
    /* Writes several runs, at least 1, rising and apart, from their places in the card, in any order. All are
       done, or none is under way any more, when it answers. NULL means one write a run. */
    int (*write_runs)(void *self, const uint8_t *card, const lane_run *runs, size_t runs_len);
    /* Gives the first n bytes to read and to change, as the drive has them, where a change never reaches the
       drive; NULL if it cannot. Not called with the option `unmapped`. NULL means a buffer that is read whole. */
    void *(*map)(void *self, size_t n);
    void (*unmap)(void *self, void *card, size_t n); /* not NULL where map is not */
    void (*close)(void *self);                       /* the last call; NULL means nothing to do */
} lane_drive;

/* As lane_file_open and lane_file_create, on a drive, whose struct is copied. The drive is the lane's from the
   call on, and is closed with it; also at once where the call is not done. Create asks lane_format with the
   drive's length, writes what lane_file_create writes, and does not look at what was there.
   Answers what those answer, but for _BUSY, _EXISTS, _LENGTH and _PROMISE_.. . */
int lane_file_open_on(lane_file **lane, const lane_drive *drive, const lane_file_options *options);
int lane_file_create_on(lane_file **lane, const lane_drive *drive, size_t area, const uint32_t *ranges,
                        size_t ranges_len, const lane_file_options *options);

/* The disk's drive for a file or block device, as lane_file_open takes it: opened, locked, promise and length
   asked. Done, it is handed to lane_file_open_on, itself or wrapped, or closed by drive->close(drive->self);
   else *drive is zeros. Its write_runs is NULL where nothing below works on several writes at once. Of the options
   it takes promise and unmapped.
   Answers as lane_file_open, but for the library's numbers. */
int lane_disk_open(lane_drive *drive, const char *path, const lane_file_options *options);

/* The same for a card of so many bytes that is to be created, as lane_file_create takes it: the file is made, or
   brought to that length, and holds no card yet. It is not removed if lane_file_create_on is not done. Of the
   options it takes promise and replace.
   Answers as lane_file_create, but for the library's numbers. */
int lane_disk_create(lane_drive *drive, const char *path, uint64_t bytes, const lane_file_options *options);

#ifdef __cplusplus
}
#endif

#endif
