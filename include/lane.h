/*
 * The lane page store for C: ten calls over a card, lent memory and one record.
 * Link target/staticlib/liblane.a (x86-64 Linux), made by `c/library`.
 *
 * Who keeps the card in a file or on a block device has lane_file.h, which does all that follows. This
 * is for who has no file system.
 *
 * A program compares lane_version() with LANE_VERSION at its start, and stops if they differ. It
 * formats a card once. After every power-up it starts, and then lends card, memory and record to
 * each call.
 *
 * LANE_DONE is done; any other answer is the number of the first question that was answered "no".
 * A refused call changes nothing, but that a refused lane_start makes every field of the record 0.
 *
 * What the caller owes:
 * - Every pointer is valid for its length, and not null for length 0 either.
 * - The record, and a slice that is not const, overlap nothing else that is lent.
 * - The record is aligned as its struct, ranges as uint32_t. Card, memory, buffer and bytes need no
 *   alignment: the aligned block below is the device's need.
 * - The record is kept and lent; its fields are neither read nor changed. Their form is free.
 * - Between calls, card and memory stay as the last call left them.
 *
 * Threads: records are independent of each other, since the library has no global state. Two threads
 * may use two records at once, each with its own card and memory. One record is used by one call at
 * a time, but that lane_key, lane_read and lane_forecast, which take it const, may run beside each
 * other on it, each read with its own buffer.
 *
 * A call takes less than 16 KiB of stack (measured; the proofs say nothing of the stack), not counting
 * some 3 KiB that the loader may take at the first memcpy, memmove or memset of a program that binds
 * lazily. It allocates nothing, makes no system call, and needs these three from the program.
 *
 * What the caller owes a device, or a file in its place, where the card is a copy of its blocks:
 * - It is opened with O_RDWR | O_DIRECT (and O_CLOEXEC). Through the page cache a write of one block
 *   brings down the whole memory page, 8 blocks, so that blocks 1 to 7 would rewrite block 0, long
 *   flushed, and a cut may tear it. Where the file system knows no O_DIRECT (EINVAL), a program says
 *   so and may go on without; such a card survives a kill of the program, and has no promise at a
 *   power cut.
 * - The whole card is read that way too, into a buffer aligned to 4096 bytes, so that lane_start is
 *   lent what the device has and not what the page cache has.
 * - P, D, T, M and H, from lane_page_out or lane_advance: the block reported is copied into ONE block
 *   aligned to 4096 bytes (O_DIRECT asks for it) and written by one pwrite of LANE_BLOCK bytes at
 *   block * LANE_BLOCK, with no flush. The drive may keep it in its cache and put writes down in any
 *   order.
 * - F, from lane_advance: the device is flushed (fdatasync) before the next call, and NO BLOCK IS
 *   WRITTEN. F REPORTS BLOCK 0: LOOK AT THE KIND FIRST. A PROGRAM THAT WRITES "THE BLOCK REPORTED"
 *   THERE REWRITES THE HEADER AND FLUSHES NOTHING.
 * - No other block is written, not even with the bytes it has: a cut could tear it.
 * - A snapshot is safe once the F AFTER its H is done. From H until then a cut may find it or not.
 * - After lane_format the whole card, in three steps with a flush after each: block 0 cleared, all
 *   other blocks, block 0. So lane_start refuses a card whose format was cut.
 * - After a write that failed or was short, or a flush that failed, NO FURTHER CALL IS MADE: the copy
 *   is ahead of the device, and a second flush may be done though blocks of the first are lost. The
 *   program closes the device, opens and reads it anew, and starts.
 *
 * What the device owes at a cut: block 0 is whole, old or new; every other block that was not written
 * since the last flush stands as it was, and a flush that is done has put down all that was written
 * before it. Blocks written since then may be down or not, in any order, and may hold any bytes.
 *
 * So its physical sector must be 512 bytes, or it must put 512 bytes down as one: a drive with sectors
 * of 4096 bytes that takes writes of 512 (512e) rewrites the seven neighbours of each block, and a
 * card there has no promise. `blockdev --getpbsz /dev/X`, /sys/block/X/queue/physical_block_size and
 * ioctl BLKPBSZGET tell it. The logical sector (--getss, logical_block_size, BLKSSZGET) must be 512 too,
 * else O_DIRECT refuses writes of 512 bytes (EINVAL).
 *
 * A shared mapping of the device does not do: the system may write it back during a call, block 0
 * half made, and puts down whole memory pages.
 */
#ifndef LANE_INCLUDED
#define LANE_INCLUDED

#include <stddef.h>
#include <stdint.h>

#ifdef __cplusplus
#define LANE_SIZE(type, bytes) static_assert(sizeof(type) == (bytes), #type)
extern "C" {
#else
#define LANE_SIZE(type, bytes) _Static_assert(sizeof(type) == (bytes), #type)
#endif

/* The version of this interface: the record's form, the answers and the calls' arguments. */
#define LANE_VERSION 3

/* The library's LANE_VERSION. With another one no answer can be trusted. */
uint32_t lane_version(void);

/* Limits. */
#define LANE_BLOCK 512      /* bytes of a block, a page and a memory frame */
#define LANE_CARD_MIN 11    /* blocks of a card */
#define LANE_CARD_MAX 65536
#define LANE_AREA_MIN 8     /* A: blocks of the checkpoint area, half of which, rounded down, is H */
#define LANE_AREA_MAX 512
#define LANE_RANGES_MAX 8   /* home ranges of a card, at least 1 */
#define LANE_FRAMES_MIN 4   /* memory frames */
#define LANE_FRAMES_MAX 64
#define LANE_RUN 102        /* pages that share a pot, the block of their counts and flags */

/* Blocks that a range of so many pages takes, pots and pages. A card has 1 + A blocks before its ranges. */
#define LANE_RANGE_BLOCKS(pages) ((size_t)(pages) + ((size_t)(pages) + LANE_RUN - 1) / LANE_RUN)

/* What a call answers, by document 01's numbers; lane_refusal_text has their meaning, here stands
   what to do. After a good start 1 to 3, and after a good format 4 to 8, say that something else
   wrote record, card or memory, or that another slice was lent. */
enum lane_refusal {
    LANE_DONE = 0,
    LANE_MEMORY = 1,           /* lend the memory that start was lent; after a refused start, start again */
    LANE_RECORD = 2,           /* lend the record that the last call left; if it is lost, start again */
    LANE_CARD = 3,             /* lend the whole card, the one that was started */
    LANE_LAYOUT = 4,           /* never formatted, its format was cut, or of another version */
    LANE_GEOMETRY = 5,         /* format with ranges that fill the card; at start lend it whole, or it is damaged */
    LANE_COMMIT = 6,           /* the header is damaged */
    LANE_TRAILER = 7,          /* the checkpoint area is damaged */
    LANE_DIRECTORY = 8,        /* the checkpoint area is damaged */
    LANE_OID = 9,              /* mistyped, or of another card */
    LANE_COUNT = 10,           /* rescinded since the key was made: take a new key, if it is still yours */
    LANE_LENGTH = 11,          /* lend a buffer of 512 bytes; write within the page */
    LANE_GENERATION_FULL = 12, /* advance to H, snapshot, advance: NEVER amid changes that belong together */
    LANE_AREA_FULL = 13,       /* advance until H */
    LANE_MEMORY_FULL = 14,     /* page out until the call is done; advance may end at 20 before it is */
    LANE_COUNT_END = 15,       /* the page can be written, and never rescinded again */
    LANE_PENDING = 16,         /* advance until H */
    LANE_UNCHANGED = 17,       /* nothing */
    LANE_COMMIT_END = 18,      /* nothing more is kept: copy the pages to a newly formatted card */
    LANE_NONE_WAITS = 19,      /* nothing */
    LANE_NOTHING_DUE = 20,     /* nothing */
    LANE_GAP = 21,             /* mistyped: the card has smaller and larger ones; or of another card */
    LANE_FLUSH_DUE = 28        /* advance once (F), then page out */
};

/* The sentence of each number. */
static inline const char *lane_refusal_text(uint32_t refusal)
{
    switch (refusal) {
    case LANE_DONE: return "done";
    case LANE_MEMORY: return "memory is not 4 to 64 whole frames, or not as long as the record says";
    case LANE_RECORD: return "the record does not hold together";
    case LANE_CARD: return "the card is not 11 to 65,536 whole blocks, or not as many as the record says";
    case LANE_LAYOUT: return "the layout is not 1";
    case LANE_GEOMETRY: return "A or the ranges break the limits, or do not fill the card exactly";
    case LANE_COMMIT: return "commit and trailer are not both 0, nor commit above 0 and trailer in 1 to A";
    case LANE_TRAILER: return "the trailer is not that commit's, or its numbers do not fit";
    case LANE_DIRECTORY: return "entries do not rise, or name no home frame or no block among the p";
    case LANE_OID: return "the OID is below the first range or above the last";
    case LANE_COUNT: return "the key's count is not the present one";
    case LANE_LENGTH: return "the buffer is not 512 bytes, or offset + length is above 512";
    case LANE_GENERATION_FULL: return "the current size would be above H, half the area";
    case LANE_AREA_FULL: return "all three sizes together would be above A";
    case LANE_MEMORY_FULL: return "memory has too few free frames";
    case LANE_COUNT_END: return "the count is 4,294,967,295";
    case LANE_PENDING: return "a snapshot is pending";
    case LANE_UNCHANGED: return "no frame has changed since the last snapshot or start";
    case LANE_COMMIT_END: return "the commit number is 4,294,967,295";
    case LANE_NONE_WAITS: return "no frame waits";
    case LANE_NOTHING_DUE: return "no block write and no flush is due";
    case LANE_GAP: return "the OID lies between two ranges";
    case LANE_FLUSH_DUE: return "the flush after a header write or a start is due";
    default: return "a number that this header does not know";
    }
}

/* What an advance or a page-out did. */
enum lane_kind {
    LANE_REFUSED = 0, /* nothing */
    LANE_P = 1,       /* the oldest waiting frame, to the area */
    LANE_D = 2,       /* a block of its directory */
    LANE_T = 3,       /* its trailer */
    LANE_M = 4,       /* a frame of the committed generation, copied to its home block; never an empty page */
    LANE_H = 5,       /* the header: the snapshot is committed once it is flushed */
    LANE_F = 6        /* no block: FLUSH the device before the next call, and write nothing */
};

typedef struct {
    size_t blocks;
    size_t area;
    size_t count;
    uint32_t ranges[16];
} lane_geometry;
LANE_SIZE(lane_geometry, 88);

/* Entries by rising frame, each a frame and the place of its block: how many blocks on from the
   generation's first it is, in the ring of blocks 1 to A. */
typedef struct {
    size_t count;
    uint16_t frames[256];
    uint8_t places[256];
} lane_directory;
LANE_SIZE(lane_directory, 776);

/* Entries by rising frame too, each with the last place that its frame took. */
typedef struct {
    size_t count;
    size_t taken;
    size_t down;
    uint16_t frames[256];
    uint8_t places[256];
} lane_changes;
LANE_SIZE(lane_changes, 792);

/* The record. */
typedef struct {
    size_t frames;
    size_t head;
    lane_geometry geometry;
    uint32_t commit;
    uint32_t phase;
    size_t first;
    size_t pages;
    lane_directory committed;
    size_t migrated;
    lane_changes pending;
    size_t tail;
    lane_changes current;
} lane_store;
LANE_SIZE(lane_store, 2504);

/* What lane_key answers: LANE_DONE and the present count, or the refusal and 0. */
typedef struct {
    uint32_t refusal;
    uint32_t count;
} lane_present;
LANE_SIZE(lane_present, 8);

/* What lane_forecast answers: LANE_DONE and the number of advances, or the refusal and 0. */
typedef struct {
    uint32_t refusal;
    uint32_t advances;
} lane_foretold;
LANE_SIZE(lane_foretold, 8);

/* What lane_page_out and lane_advance answer. Done: the kind, LANE_DONE, and the block written (0 for
   LANE_F, which writes none). Refused: LANE_REFUSED, the refusal, and block 0. */
typedef struct {
    uint32_t kind;
    uint32_t refusal;
    size_t block;
} lane_report;
LANE_SIZE(lane_report, 16);

/*
 * The calls. Each takes the same card (all its blocks, card_len bytes) and the same memory (any bytes
 * before start, memory_len bytes). Questions are asked in the order in which their numbers stand.
 */

/* Makes a card of any bytes an empty one, with `area` blocks of checkpoint area: writes each pot,
   then the header. `ranges` has the first OID and the number of pages of each range in turn, so
   ranges_len is twice their number. OIDs rise from range to range; card_len is LANE_BLOCK times
   1 + area + LANE_RANGE_BLOCKS of each range.
   Answers LANE_CARD 3, LANE_GEOMETRY 5. */
uint32_t lane_format(uint8_t *card, size_t card_len, size_t area, const uint32_t *ranges,
                     size_t ranges_len);

/* Makes the record that the card tells of, with every page and count as at the last snapshot whose
   header it has; what the record held before is not read.
   Answers LANE_MEMORY 1, LANE_CARD 3, LANE_LAYOUT 4, LANE_GEOMETRY 5, LANE_COMMIT 6, LANE_TRAILER 7,
   LANE_DIRECTORY 8. */
uint32_t lane_start(lane_store *s, const uint8_t *card, size_t card_len, const uint8_t *memory,
                    size_t memory_len);

/* Gives the present count of an OID; the two are the key that the next three calls take.
   Answers LANE_MEMORY 1, LANE_RECORD 2, LANE_CARD 3, LANE_GAP 21, LANE_OID 9. */
lane_present lane_key(const lane_store *s, const uint8_t *card, size_t card_len,
                      const uint8_t *memory, size_t memory_len, uint32_t oid);

/* Fills a buffer of 512 bytes with the page.
   Answers LANE_MEMORY 1, LANE_RECORD 2, LANE_CARD 3, LANE_GAP 21, LANE_OID 9, LANE_COUNT 10,
   LANE_LENGTH 11. */
uint32_t lane_read(const lane_store *s, const uint8_t *card, size_t card_len,
                   const uint8_t *memory, size_t memory_len, uint32_t oid, uint32_t count,
                   uint8_t *buffer, size_t buffer_len);

/* Puts bytes into the page at offset `at`. Length 0 changes nothing.
   Answers LANE_MEMORY 1, LANE_RECORD 2, LANE_CARD 3, LANE_GAP 21, LANE_OID 9, LANE_COUNT 10,
   LANE_LENGTH 11, LANE_GENERATION_FULL 12, LANE_AREA_FULL 13, LANE_MEMORY_FULL 14. */
uint32_t lane_write(lane_store *s, const uint8_t *card, size_t card_len, uint8_t *memory,
                    size_t memory_len, uint32_t oid, uint32_t count, size_t at,
                    const uint8_t *bytes, size_t bytes_len);

/* Empties the page, which then reads as zeros, and adds 1 to its count, so that every key to it is old.
   WIPES NOTHING: its old bytes may stay on the card, in the area and in its home block.
   Answers LANE_MEMORY 1, LANE_RECORD 2, LANE_CARD 3, LANE_GAP 21, LANE_OID 9, LANE_COUNT 10,
   LANE_COUNT_END 15, LANE_GENERATION_FULL 12, LANE_AREA_FULL 13, LANE_MEMORY_FULL 14. */
uint32_t lane_rescind(lane_store *s, const uint8_t *card, size_t card_len, uint8_t *memory,
                      size_t memory_len, uint32_t oid, uint32_t count);

/* Marks all pages and counts as they are, to be kept once their header is written and flushed.
   Answers LANE_MEMORY 1, LANE_RECORD 2, LANE_CARD 3, LANE_PENDING 16, LANE_UNCHANGED 17,
   LANE_COMMIT_END 18. */
uint32_t lane_snapshot(lane_store *s, const uint8_t *card, size_t card_len, const uint8_t *memory,
                       size_t memory_len);

/* Writes the oldest waiting frame to the area, which frees its memory frame; its kind is LANE_P.
   Refused LANE_FLUSH_DUE until the flush after a start or a header write is made.
   Answers LANE_MEMORY 1, LANE_RECORD 2, LANE_CARD 3, LANE_FLUSH_DUE 28, LANE_NONE_WAITS 19. */
lane_report lane_page_out(lane_store *s, uint8_t *card, size_t card_len, const uint8_t *memory,
                          size_t memory_len);

/* Makes the next block write of a commit or of migration, or asks for the flush that comes before it:
   just before every LANE_H, just after it, and first of all after a start. Migration passes over a
   page that is empty in the committed generation, one whose flag is set in its pot as that has it:
   its home block keeps what it has, any bytes, and no call reads it. LANE_NOTHING_DUE: all is home
   that is to be read there.
   Answers LANE_MEMORY 1, LANE_RECORD 2, LANE_CARD 3, LANE_NOTHING_DUE 20. */
lane_report lane_advance(lane_store *s, uint8_t *card, size_t card_len, const uint8_t *memory,
                         size_t memory_len);

/* Gives how many advances are left until the pending snapshot is safe: up to and with the LANE_F after
   its LANE_H, each flush counted. With none pending it is 1 while the flush after a header write or a
   start is due, else 0. Changes nothing.
   Each advance takes one off while it is above 0, and so does a page-out of a pending frame; the last
   but one is LANE_H, the last LANE_F: at 0 the snapshot is safe once that flush is done. Writes,
   rescinds, reads, keys and refused calls leave it as it is. A start begins anew, at 1.
   Answers LANE_MEMORY 1, LANE_RECORD 2, LANE_CARD 3. */
lane_foretold lane_forecast(const lane_store *s, const uint8_t *card, size_t card_len,
                            const uint8_t *memory, size_t memory_len);

#ifdef __cplusplus
}
#endif
#undef LANE_SIZE

#endif
