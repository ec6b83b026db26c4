/*
 * The ready layer on files.
 *
 *   file FOLDER    uses the folder, which is empty
 */
#define _GNU_SOURCE
#include "check.h"

#include <fcntl.h>
#include <sys/stat.h>
#include <sys/vfs.h>
#include <sys/wait.h>
#include <unistd.h>

static const uint32_t RANGE[2] = {FIRST, PAGES};

static lane_file_options kill_safe(void)
{
    lane_file_options options = {0};
    options.promise = LANE_PROMISE_KILL;
    return options;
}

static lane_file *created(const char *path, size_t area, lane_file_options options)
{
    lane_file *lane;
    unlink(path);
    IS(lane_file_create(&lane, path, area, RANGE, 2, &options), LANE_DONE);
    return lane;
}

static lane_file *opened(const char *path, lane_file_options options)
{
    lane_file *lane;
    IS(lane_file_open(&lane, path, &options), LANE_DONE);
    return lane;
}

static int open_answer(const char *path, lane_file_options options)
{
    lane_file *lane;
    int answer = lane_file_open(&lane, path, &options);
    HOLDS((lane != NULL) == (answer == LANE_DONE));
    lane_file_close(lane);
    return answer;
}

static int create_answer(const char *path, lane_file_options options)
{
    lane_file *lane;
    int answer = lane_file_create(&lane, path, AREA, RANGE, 2, &options);
    HOLDS((lane != NULL) == (answer == LANE_DONE));
    lane_file_close(lane);
    return answer;
}

static long long length(const char *path)
{
    struct stat found;
    return stat(path, &found) == 0 ? (long long)found.st_size : -1;
}

static void a_day(const char *path, int unmapped)
{
    lane_file_options options = kill_safe();
    options.unmapped = unmapped;
    lane_file *lane = created(path, AREA, options);
    IS(length(path), BLOCKS * LANE_BLOCK);
    IS(shown(lane, FIRST), 0);
    IS(fill(lane, FIRST, 1), LANE_DONE);
    IS(lane_file_commit(lane), LANE_DONE);
    IS(lane_file_commit(lane), LANE_DONE); /* nothing has changed */
    IS(lane_file_snapshot(lane), LANE_UNCHANGED);
    IS(fill(lane, FIRST, 2), LANE_DONE);
    IS(lane_file_snapshot(lane), LANE_DONE);
    IS(lane_file_snapshot(lane), LANE_PENDING);
    IS(fill(lane, FIRST, 3), LANE_DONE); /* the next snapshot's */
    IS(lane_file_finish(lane), LANE_DONE);
    IS(lane_file_finish(lane), LANE_DONE);
    IS(shown(lane, FIRST), 3);
    lane_file_close(lane); /* commits nothing */
    lane = opened(path, options);
    IS(shown(lane, FIRST), 2);
    IS(lane_file_settle(lane), LANE_DONE);
    IS(lane_file_advance(lane, NULL), LANE_NOTHING_DUE);
    IS(shown(lane, FIRST), 2);
    lane_file_close(lane);
    IS(shown(lane = opened(path, options), FIRST), 2);
    lane_file_close(lane);
}

/* OIDs around two ranges of two pages each. */
static void ranges(const char *path)
{
    static const uint32_t apart[4] = {FIRST, 2, FIRST + 4, 2};
    static const int told[8] = {LANE_OID, LANE_DONE, LANE_DONE, LANE_GAP, LANE_GAP, LANE_DONE, LANE_DONE, LANE_OID};
    const lane_file_options options = kill_safe();
    uint8_t page[LANE_BLOCK] = {0};
    lane_file *lane;
    unlink(path);
    IS(lane_file_create(&lane, path, AREA, apart, 4, &options), LANE_DONE);
    for (uint32_t i = 0; i < 8; i++) {
        uint32_t oid = FIRST - 1 + i, count = 7;
        IS(lane_file_key(lane, oid, &count), told[i]);
        IS(count, 0);
        IS(lane_file_read(lane, oid, 0, page), told[i]);
        IS(lane_file_write(lane, oid, 0, 0, page, 0), told[i]);
        if (told[i] != LANE_DONE)
            IS(lane_file_rescind(lane, oid, 0), told[i]);
    }
    lane_file_close(lane);
}

static void keys(const char *path)
{
    uint8_t page[LANE_BLOCK] = {0};
    uint32_t count = 7;
    lane_file *lane = created(path, AREA, kill_safe());
    IS(lane_file_key(lane, FIRST - 1, &count), LANE_OID);
    IS(count, 0);
    IS(lane_file_key(lane, FIRST + PAGES, &count), LANE_OID);
    IS(lane_file_write(lane, FIRST, 1, 0, page, 1), LANE_COUNT);
    IS(lane_file_write(lane, FIRST, 0, LANE_BLOCK, page, 1), LANE_LENGTH);
    IS(lane_file_write(lane, FIRST, 0, LANE_BLOCK, page, 0), LANE_DONE);
    IS(lane_file_snapshot(lane), LANE_UNCHANGED);
    IS(fill(lane, FIRST, 9), LANE_DONE);
    IS(lane_file_rescind(lane, FIRST, 1), LANE_COUNT);
    IS(lane_file_rescind(lane, FIRST, 0), LANE_DONE);
    IS(lane_file_read(lane, FIRST, 0, page), LANE_COUNT);
    IS(lane_file_key(lane, FIRST, &count), LANE_DONE);
    IS(count, 1);
    IS(shown(lane, FIRST), 0);
    IS(lane_file_commit(lane), LANE_DONE);
    lane_file_close(lane);
    lane = opened(path, kill_safe());
    IS(lane_file_key(lane, FIRST, &count), LANE_DONE);
    IS(count, 1);
    lane_file_close(lane);
}

/* A commit takes what is pending with it, and what came after. */
static void commit_over_pending(const char *path)
{
    lane_file *lane = created(path, AREA, kill_safe());
    IS(fill(lane, FIRST, 1), LANE_DONE);
    IS(lane_file_snapshot(lane), LANE_DONE);
    IS(fill(lane, FIRST + 1, 2), LANE_DONE);
    IS(lane_file_commit(lane), LANE_DONE);
    lane_file_close(lane);
    lane = opened(path, kill_safe());
    IS(shown(lane, FIRST), 1);
    IS(shown(lane, FIRST + 1), 2);
    lane_file_close(lane);
}

/* P, D, T, F, H, F of one page and its pot, then M twice, each step by itself. */
static void steps(const char *path)
{
    static const uint32_t kinds[] = {LANE_P, LANE_P, LANE_D, LANE_T, LANE_F, LANE_H, LANE_F, LANE_M, LANE_M};
    static const size_t blocks[] = {1, 2, 3, 4, 0, 0, 0, 1 + AREA, 2 + AREA};
    lane_file *lane = created(path, AREA, kill_safe());
    lane_report report;
    IS(fill(lane, FIRST, 5), LANE_DONE);
    IS(lane_file_snapshot(lane), LANE_DONE);
    for (size_t i = 0; i < sizeof kinds / sizeof *kinds; i++) {
        IS(lane_file_advance(lane, &report), LANE_DONE);
        IS(report.kind, kinds[i]);
        IS((long)report.block, (long)blocks[i]);
    }
    IS(lane_file_advance(lane, &report), LANE_NOTHING_DUE);
    IS(report.kind, LANE_REFUSED);
    IS(report.refusal, LANE_NOTHING_DUE);
    IS(lane_file_finish(lane), LANE_DONE);
    lane_file_close(lane);
    IS(shown(lane = opened(path, kill_safe()), FIRST), 5);
    lane_file_close(lane);
}

/* A page that is rescinded before its snapshot is passed over: M of its pot, and no other is due. */
static void passed_over(const char *path)
{
    lane_file *lane = created(path, AREA, kill_safe());
    lane_report report;
    IS(fill(lane, FIRST, 5), LANE_DONE);
    IS(lane_file_rescind(lane, FIRST, 0), LANE_DONE);
    IS(lane_file_commit(lane), LANE_DONE);
    IS(lane_file_advance(lane, &report), LANE_DONE);
    IS(report.kind, LANE_M);
    IS((long)report.block, 1 + AREA);
    IS(lane_file_advance(lane, &report), LANE_NOTHING_DUE);
    lane_file_close(lane);
    IS(shown(lane = opened(path, kill_safe()), FIRST), 0);
    lane_file_close(lane);
}

/* Calls that leave the forecast as it is, the last two refused. */
static void changed_meanwhile(lane_file *lane, int wanted)
{
    uint32_t count;
    IS(fill(lane, FIRST, 2), LANE_DONE);
    IS(forecast(lane), wanted);
    IS(lane_file_key(lane, FIRST, &count), LANE_DONE);
    IS(lane_file_rescind(lane, FIRST, count), LANE_DONE);
    IS(shown(lane, FIRST), 0);
    IS(lane_file_rescind(lane, FIRST, count), LANE_COUNT);
    IS(lane_file_snapshot(lane), LANE_PENDING);
    IS(forecast(lane), wanted);
}

/* Every step of a pending snapshot takes one off, with changes between them: the last but one is H, the last F. */
static void counted_down(lane_file *lane, int wanted, int changing)
{
    lane_report report;
    for (int n = wanted; n > 0; n--) {
        IS(forecast(lane), n);
        if (changing && n > 1)
            changed_meanwhile(lane, n);
        IS(lane_file_advance(lane, &report), LANE_DONE);
        HOLDS(n > 2 || report.kind == (n == 2 ? LANE_H : LANE_F));
    }
    IS(forecast(lane), 0);
}

/* The smallest card: P, P, D, T, F, H, F. With both frames still to go home P, D, T, M, M, F, H, F. Alone M takes
   nothing off, since a snapshot is safe before it. */
static void forecasts(const char *path)
{
    const uint32_t one_page[2] = {FIRST, 1};
    const lane_file_options options = kill_safe();
    lane_file *lane;
    unlink(path);
    IS(lane_file_create(&lane, path, LANE_AREA_MIN, one_page, 2, &options), LANE_DONE);
    IS(forecast(lane), 0); /* the first F is made */
    IS(fill(lane, FIRST, 1), LANE_DONE);
    IS(forecast(lane), 0);
    IS(lane_file_snapshot(lane), LANE_DONE);
    counted_down(lane, 7, 1);
    lane_file_close(lane); /* what was changed meanwhile is lost */
    lane = opened(path, options);
    IS(forecast(lane), 0);
    IS(fill(lane, FIRST, 3), LANE_DONE);
    IS(lane_file_snapshot(lane), LANE_DONE);
    counted_down(lane, 8, 0);
    IS(lane_file_advance(lane, NULL), LANE_DONE);
    IS(lane_file_advance(lane, NULL), LANE_NOTHING_DUE);
    IS(forecast(lane), 0);
    lane_file_close(lane);
}

/* A page that may be rescinded before its commit or after it, and then a snapshot with a page that was empty. */
static void to_bring_home(const char *path, int before, int after, uint32_t next, int wanted)
{
    lane_file *lane = created(path, AREA, kill_safe());
    IS(fill(lane, FIRST, 5), LANE_DONE);
    if (before)
        IS(lane_file_rescind(lane, FIRST, 0), LANE_DONE);
    IS(lane_file_commit(lane), LANE_DONE);
    if (after)
        IS(lane_file_rescind(lane, FIRST, 0), LANE_DONE);
    IS(fill(lane, next, 6), LANE_DONE);
    IS(lane_file_snapshot(lane), LANE_DONE);
    counted_down(lane, wanted, 0);
    lane_file_close(lane);
}

/* P, P, D, T, M of the page and its pot, F, H, F; without M of a page that is empty in its commit, whatever it is
   now. */
static void forecast_passes_over(const char *path)
{
    to_bring_home(path, 0, 0, FIRST + 1, 9);
    to_bring_home(path, 0, 1, FIRST + 1, 9);
    to_bring_home(path, 1, 0, FIRST + 1, 8);
    to_bring_home(path, 1, 0, FIRST, 8);
}

/* So many pages change, none of them empty before. */
static void changes(lane_file *lane, uint32_t frames, int wanted)
{
    for (uint32_t i = 0; i < frames; i++)
        IS(fill(lane, FIRST + i, 1), LANE_DONE);
    IS(lane_file_snapshot(lane), LANE_DONE);
    IS(forecast(lane), wanted);
    IS(lane_file_finish(lane), LANE_DONE);
    IS(forecast(lane), 0);
}

/* The numbers of docs/OPERATING.md: with the last commit home, and with as many frames still to migrate. */
static void foretold_sizes(const char *path)
{
    static const int rows[][3] = {{1, 6, 7}, {2, 7, 9}, {8, 13, 21}, {32, 37, 69}, {64, 69, 133}, {251, 72, 323}};
    const uint32_t range[2] = {FIRST, 251};
    lane_file_options options = kill_safe();
    lane_file *lane;
    options.room = LANE_ROOM_COMMIT;
    unlink(path);
    IS(lane_file_create(&lane, path, LANE_AREA_MAX, range, 2, &options), LANE_DONE);
    for (uint32_t i = 0; i < range[1]; i++)
        IS(fill(lane, FIRST + i, 1), LANE_DONE);
    IS(lane_file_commit(lane), LANE_DONE);
    for (size_t i = 0; i < sizeof rows / sizeof *rows; i++) {
        IS(lane_file_settle(lane), LANE_DONE);
        changes(lane, (uint32_t)rows[i][0], rows[i][1]);
        changes(lane, (uint32_t)rows[i][0], rows[i][2]);
    }
    lane_file_close(lane);
}

/* Half of the area holds three new pages and their pot. */
static void generation_full(const char *path, enum lane_file_room room)
{
    lane_file_options options = kill_safe();
    options.room = room;
    lane_file *lane = created(path, AREA, options);
    int wanted = room == LANE_ROOM_COMMIT ? LANE_DONE : LANE_GENERATION_FULL;
    for (uint32_t i = 0; i < 3; i++)
        IS(fill(lane, FIRST + i, 1), LANE_DONE);
    IS(fill(lane, FIRST + 3, 1), wanted);
    IS(lane_file_rescind(lane, FIRST + 4, 0), LANE_DONE); /* the pot waits already */
    IS(shown(lane, FIRST + 3), room == LANE_ROOM_COMMIT);
    lane_file_close(lane);
    lane = opened(path, options);
    for (uint32_t i = 0; i < 3; i++)
        IS(shown(lane, FIRST + i), room == LANE_ROOM_COMMIT);
    IS(shown(lane, FIRST + 3), 0);
    lane_file_close(lane);
}

/* A committed generation of 6 blocks, a pending one of 4 and a current one of 3 pass the area of 12. */
static void area_full(const char *path, enum lane_file_room room)
{
    lane_file_options options = kill_safe();
    options.room = room;
    lane_file *lane = created(path, AREA, options);
    for (uint32_t i = 0; i < 3; i++)
        IS(fill(lane, FIRST + i, 1), LANE_DONE);
    IS(lane_file_commit(lane), LANE_DONE);
    IS(fill(lane, FIRST, 2), LANE_DONE);
    IS(fill(lane, FIRST + 1, 2), LANE_DONE);
    IS(lane_file_snapshot(lane), LANE_DONE);
    IS(forecast(lane), 11);
    IS(fill(lane, FIRST + 2, 2), room == LANE_ROOM_REFUSE ? LANE_AREA_FULL : LANE_DONE);
    IS(forecast(lane), room == LANE_ROOM_REFUSE ? 11 : 0);
    lane_file_close(lane);
    lane = opened(path, options);
    IS(shown(lane, FIRST), room == LANE_ROOM_REFUSE ? 1 : 2); /* room was made by finishing the snapshot */
    IS(shown(lane, FIRST + 2), 1);
    lane_file_close(lane);
}

static void memory_full(const char *path, enum lane_file_room room)
{
    lane_file_options options = kill_safe();
    options.room = room;
    options.frames = LANE_FRAMES_MIN;
    lane_file *lane = created(path, 5 * AREA, options);
    for (uint32_t i = 0; i < 3; i++)
        IS(fill(lane, FIRST + i, 1), LANE_DONE);
    for (uint32_t i = 3; i < PAGES; i++)
        IS(fill(lane, FIRST + i, 1), room == LANE_ROOM_REFUSE ? LANE_MEMORY_FULL : LANE_DONE);
    IS(lane_file_commit(lane), LANE_DONE);
    lane_file_close(lane);
    lane = opened(path, options);
    for (uint32_t i = 0; i < PAGES; i++)
        IS(shown(lane, FIRST + i), i < 3 || room != LANE_ROOM_REFUSE);
    lane_file_close(lane);
}

static void rooms(const char *path)
{
    for (int room = LANE_ROOM_MAKE; room <= LANE_ROOM_COMMIT; room++) {
        generation_full(path, (enum lane_file_room)room);
        area_full(path, (enum lane_file_room)room);
        memory_full(path, (enum lane_file_room)room);
    }
}

static void one_at_a_time(const char *path)
{
    lane_file_options replace = kill_safe();
    replace.replace = 1;
    lane_file *lane = created(path, AREA, kill_safe());
    IS(open_answer(path, kill_safe()), LANE_FILE_BUSY);
    IS(create_answer(path, replace), LANE_FILE_BUSY);
    IS(fill(lane, FIRST, 1), LANE_DONE);
    IS(lane_file_commit(lane), LANE_DONE);
    lane_file_close(lane);
    IS(open_answer(path, kill_safe()), LANE_DONE);
}

/* The child lets go of its copy; lane and lock stay the parent's. */
static void after_fork(const char *path)
{
    int status;
    lane_file *lane = created(path, AREA, kill_safe());
    pid_t child = fork();
    HOLDS(child >= 0);
    if (child == 0) {
        lane_file_close(lane);
        _exit(0);
    }
    HOLDS(waitpid(child, &status, 0) == child && status == 0);
    IS(open_answer(path, kill_safe()), LANE_FILE_BUSY);
    for (uint32_t i = 0; i < 3; i++)
        IS(fill(lane, FIRST + i, 1), LANE_DONE);
    IS(lane_file_commit(lane), LANE_DONE);
    IS(lane_file_settle(lane), LANE_DONE);
    lane_file_close(lane);
    IS(open_answer(path, kill_safe()), LANE_DONE);
}

static void creating(const char *path)
{
    lane_file_options replace = kill_safe();
    lane_file *lane;
    replace.replace = 1;
    unlink(path);
    IS(create_answer(path, kill_safe()), LANE_DONE);
    IS(create_answer(path, kill_safe()), LANE_FILE_EXISTS);
    IS(length(path), BLOCKS * LANE_BLOCK);
    IS(truncate(path, 100000), 0);
    IS(create_answer(path, replace), LANE_DONE);
    IS(length(path), BLOCKS * LANE_BLOCK);
    IS(truncate(path, 0), 0);
    IS(create_answer(path, kill_safe()), LANE_DONE);
    unlink(path);
    replace.frames = LANE_FRAMES_MIN - 1;
    IS(create_answer(path, replace), LANE_MEMORY);
    replace.frames = LANE_FRAMES_MAX + 1;
    IS(create_answer(path, replace), LANE_MEMORY);
    IS(lane_file_create(&lane, path, AREA, RANGE, 1, NULL), LANE_GEOMETRY);
    IS(lane_file_create(&lane, path, LANE_AREA_MAX + 1, RANGE, 2, NULL), LANE_GEOMETRY);
    IS(lane_file_create(&lane, path, 1, RANGE, 0, NULL), LANE_CARD);
    IS(lane_file_create(&lane, path, SIZE_MAX, RANGE, 2, NULL), LANE_CARD);
    IS(length(path), -1); /* nothing was made */
}

static void other_lengths(const char *path)
{
    static const long lengths[] = {(BLOCKS - 1) * LANE_BLOCK, (BLOCKS + 1) * LANE_BLOCK, BLOCKS * LANE_BLOCK - 1,
                                   BLOCKS * LANE_BLOCK + 1, LANE_BLOCK};
    for (size_t i = 0; i < sizeof lengths / sizeof *lengths; i++) {
        lane_file_close(created(path, AREA, kill_safe()));
        IS(truncate(path, lengths[i]), 0);
        IS(open_answer(path, kill_safe()), LANE_FILE_LENGTH);
    }
}

/* A file of so many bytes, with a header of these numbers: layout, A, ranges, and n of the first. */
static void doctor(const char *path, long bytes, uint8_t layout, uint8_t area, uint8_t ranges, uint8_t pages)
{
    uint8_t header[28] = {0};
    int fd = open(path, O_RDWR | O_CREAT | O_TRUNC, 0666);
    header[0] = layout;
    header[12] = area;
    header[16] = ranges;
    header[24] = pages;
    HOLDS(fd >= 0 && write(fd, header, sizeof header) == sizeof header && ftruncate(fd, bytes) == 0);
    close(fd);
}

static void no_card(const char *path)
{
    const long whole = BLOCKS * LANE_BLOCK;
    unlink(path);
    IS(open_answer(path, kill_safe()), LANE_FILE_SYSTEM);
    IS(errno, ENOENT);
    doctor(path, whole, 0, AREA, 1, PAGES);
    IS(open_answer(path, kill_safe()), LANE_LAYOUT);
    doctor(path, whole, 1, LANE_AREA_MIN - 1, 1, PAGES);
    IS(open_answer(path, kill_safe()), LANE_GEOMETRY);
    doctor(path, whole, 1, AREA, LANE_RANGES_MAX + 1, PAGES);
    IS(open_answer(path, kill_safe()), LANE_GEOMETRY);
    doctor(path, whole, 1, AREA, 1, 0);
    IS(open_answer(path, kill_safe()), LANE_GEOMETRY);
    doctor(path, whole, 1, AREA, 1, PAGES + 1);
    IS(open_answer(path, kill_safe()), LANE_FILE_LENGTH);
    doctor(path, 100, 1, AREA, 1, PAGES);
    IS(open_answer(path, kill_safe()), LANE_CARD);
    doctor(path, whole + 1, 0, AREA, 1, PAGES);
    IS(open_answer(path, kill_safe()), LANE_CARD);
    doctor(path, (LANE_CARD_MAX + 1L) * LANE_BLOCK, 0, AREA, 1, PAGES);
    IS(open_answer(path, kill_safe()), LANE_CARD);
    IS(open_answer("/dev/null", kill_safe()), LANE_FILE_SYSTEM);
    IS(errno, ENODEV);
    IS(open_answer(".", kill_safe()), LANE_FILE_SYSTEM);
    IS(errno, EISDIR);
}

static void other_options(const char *path)
{
    lane_file_options options = kill_safe();
    lane_file_close(created(path, AREA, options));
    options.frames = LANE_FRAMES_MIN - 1;
    IS(open_answer(path, options), LANE_MEMORY);
    options = kill_safe();
    options.room = (enum lane_file_room)(LANE_ROOM_COMMIT + 1);
    IS(open_answer(path, options), LANE_FILE_SYSTEM);
    IS(errno, EINVAL);
    options = kill_safe();
    options.promise = (enum lane_file_promise)(LANE_PROMISE_KILL + 1);
    IS(open_answer(path, options), LANE_FILE_SYSTEM);
    IS(errno, EINVAL);
    IS(open_answer(path, kill_safe()), LANE_DONE);
}

/* Memory is no device: what asks for one is refused there, and a file that was made for it is gone. */
static void promises(const char *folder, const char *path)
{
    enum { TMPFS = 0x01021994 };
    const lane_file_options asked = {0};
    struct statfs found;
    unlink(path);
    IS(statfs(folder, &found), 0);
    int answer = create_answer(path, asked);
    if (answer == LANE_DONE)
        printf("file: the promise is kept in %s\n", folder);
    else
        printf("file: refused in %s: %s\n", folder, lane_file_text(answer));
    HOLDS(answer == LANE_DONE ? found.f_type != TMPFS
                              : answer <= LANE_FILE_PROMISE_DIRECT && answer >= LANE_FILE_PROMISE_FILE_SYSTEM);
    IS(length(path), answer == LANE_DONE ? BLOCKS * LANE_BLOCK : -1);
    lane_file_close(created(path, AREA, kill_safe()));
    IS(open_answer(path, asked), answer);
}

static void texts(void)
{
    for (int a = LANE_FILE_VERSION - 1; a <= LANE_FLUSH_DUE + 1; a++) {
        HOLDS(lane_file_text(a)[0] != '\0');
        for (int b = LANE_FILE_VERSION - 1; b < a && a <= LANE_GAP; b++)
            HOLDS(strcmp(lane_file_text(a), lane_file_text(b)) != 0);
    }
    IS(strcmp(lane_file_text(LANE_FLUSH_DUE), lane_refusal_text(LANE_FLUSH_DUE)), 0);
}

int main(int argc, char **argv)
{
    char path[4096];
    HOLDS(argc == 2);
    snprintf(path, sizeof path, "%s/card", argv[1]);
    texts();
    a_day(path, 0);
    a_day(path, 1);
    keys(path);
    ranges(path);
    commit_over_pending(path);
    steps(path);
    passed_over(path);
    forecasts(path);
    forecast_passes_over(path);
    foretold_sizes(path);
    rooms(path);
    one_at_a_time(path);
    after_fork(path);
    creating(path);
    other_lengths(path);
    no_card(path);
    other_options(path);
    promises(argv[1], path);
    return 0;
}
