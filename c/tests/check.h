/* What the tests of the ready layer share. */
#ifndef CHECK_INCLUDED
#define CHECK_INCLUDED

#include "lane_file.h"

#include <errno.h>
#include <stdio.h>
#include <stdlib.h>
#include <string.h>

/* A card of ten pages, and its blocks. */
enum { FIRST = 100, PAGES = 10, AREA = 12, BLOCKS = 1 + AREA + LANE_RANGE_BLOCKS(PAGES) };

#define IS(call, wanted) is(__FILE__, __LINE__, #call, (call), (wanted))
#define HOLDS(condition) is(__FILE__, __LINE__, #condition, !!(condition), 1)

static inline void is(const char *file, int line, const char *what, long got, long wanted)
{
    if (got == wanted)
        return;
    fprintf(stderr, "%s:%d: %s is %ld (%s), not %ld\n", file, line, what, got, lane_file_text((int)got), wanted);
    exit(1);
}

/* Writes a page whole, each byte the same, by its present key. */
static inline int fill(lane_file *lane, uint32_t oid, uint8_t byte)
{
    uint8_t page[LANE_BLOCK];
    uint32_t count;
    int answer = lane_file_key(lane, oid, &count);
    memset(page, byte, sizeof page);
    return answer == LANE_DONE ? lane_file_write(lane, oid, count, 0, page, sizeof page) : answer;
}

/* The byte that a page has throughout; fails if it is torn. */
static inline int shown(const lane_file *lane, uint32_t oid)
{
    uint8_t page[LANE_BLOCK];
    uint32_t count;
    IS(lane_file_key(lane, oid, &count), LANE_DONE);
    IS(lane_file_read(lane, oid, count, page), LANE_DONE);
    HOLDS(memcmp(page, page + 1, sizeof page - 1) == 0);
    return page[0];
}

/* How many block writes and flushes are left until the last snapshot is safe. */
static inline int forecast(const lane_file *lane)
{
    uint32_t advances;
    IS(lane_file_forecast(lane, &advances), LANE_DONE);
    return (int)advances;
}

/* Every call of a stopped lane. */
static inline void is_stopped(lane_file *lane)
{
    uint8_t page[LANE_BLOCK] = {0};
    uint32_t count, advances = 7;
    lane_report report;
    IS(lane_file_key(lane, FIRST, &count), LANE_FILE_STOPPED);
    IS(lane_file_read(lane, FIRST, 0, page), LANE_FILE_STOPPED);
    IS(lane_file_write(lane, FIRST, 0, 0, page, sizeof page), LANE_FILE_STOPPED);
    IS(lane_file_rescind(lane, FIRST, 0), LANE_FILE_STOPPED);
    IS(lane_file_snapshot(lane), LANE_FILE_STOPPED);
    IS(lane_file_finish(lane), LANE_FILE_STOPPED);
    IS(lane_file_commit(lane), LANE_FILE_STOPPED);
    IS(lane_file_settle(lane), LANE_FILE_STOPPED);
    IS(lane_file_forecast(lane, &advances), LANE_FILE_STOPPED);
    IS(advances, 0);
    IS(lane_file_advance(lane, &report), LANE_FILE_STOPPED);
    IS(report.kind, LANE_REFUSED);
}

#endif
