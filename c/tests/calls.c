/*
 * What the ready layer never meets of a forecast: the library's calls by themselves, on a card in memory.
 *
 *   calls FOLDER    leaves the folder as it is
 */
#include "check.h"

enum { CARD = (1 + LANE_AREA_MIN + LANE_RANGE_BLOCKS(1)) * LANE_BLOCK, MEMORY = LANE_FRAMES_MIN * LANE_BLOCK };

typedef struct {
    lane_store store;
    uint8_t card[CARD];
    uint8_t memory[MEMORY];
} lane_bytes;

#define LENT(l) &(l)->store, (l)->card, CARD, (l)->memory, MEMORY

/* Formatted and started. */
static lane_bytes begun(void)
{
    const uint32_t range[2] = {FIRST, 1};
    lane_bytes lane;
    memset(&lane, 0, sizeof lane);
    IS(lane_format(lane.card, CARD, LANE_AREA_MIN, range, 2), LANE_DONE);
    IS(lane_start(LENT(&lane)), LANE_DONE);
    return lane;
}

static int advances_of(const lane_bytes *lane)
{
    lane_foretold foretold = lane_forecast(LENT(lane));
    IS(foretold.refusal, LANE_DONE);
    return (int)foretold.advances;
}

static void write_byte(lane_bytes *lane, uint8_t byte)
{
    IS(lane_write(LENT(lane), FIRST, 0, 0, &byte, 1), LANE_DONE);
}

static void is_refused(lane_foretold foretold, uint32_t wanted)
{
    IS(foretold.refusal, wanted);
    IS(foretold.advances, 0);
}

/* Questions 1 to 3, in this order. */
static void refused(void)
{
    const lane_bytes lane = begun();
    lane_store other = lane.store;
    other.phase = 3;
    is_refused(lane_forecast(&other, lane.card, CARD - 1, lane.memory, MEMORY - 1), LANE_MEMORY);
    is_refused(lane_forecast(&other, lane.card, CARD - 1, lane.memory, MEMORY), LANE_RECORD);
    is_refused(lane_forecast(&lane.store, lane.card, CARD - 1, lane.memory, MEMORY), LANE_CARD);
    IS(advances_of(&lane), 1);
}

/* Advances to 0; the last but one is H, the last F. */
static void count_down(lane_bytes *lane, int wanted)
{
    for (int n = wanted; n > 0; n--) {
        IS(advances_of(lane), n);
        lane_report report = lane_advance(LENT(lane));
        IS(report.refusal, LANE_DONE);
        HOLDS(n > 2 || report.kind == (n == 2 ? LANE_H : LANE_F));
    }
    IS(advances_of(lane), 0);
}

/* The F that is due after a start is counted, with a snapshot pending and without. */
static void after_a_start(void)
{
    lane_bytes lane = begun();
    IS(advances_of(&lane), 1);
    write_byte(&lane, 1);
    IS(advances_of(&lane), 1);
    IS(lane_snapshot(LENT(&lane)), LANE_DONE);
    count_down(&lane, 8);
    IS(lane_start(LENT(&lane)), LANE_DONE);
    IS(advances_of(&lane), 1);
    IS(lane_advance(LENT(&lane)).kind, LANE_F);
    for (int moves = 0; moves < 2; moves++) {
        IS(advances_of(&lane), 0);
        IS(lane_advance(LENT(&lane)).kind, LANE_M);
    }
    IS(lane_advance(LENT(&lane)).refusal, LANE_NOTHING_DUE);
    IS(advances_of(&lane), 0);
}

/* A page-out takes one off where the frame is pending; a start takes off all but its F. */
static void over_page_outs(void)
{
    lane_bytes lane = begun();
    write_byte(&lane, 1);
    IS(lane_snapshot(LENT(&lane)), LANE_DONE);
    IS(lane_page_out(LENT(&lane)).refusal, LANE_FLUSH_DUE);
    IS(advances_of(&lane), 8);
    IS(lane_advance(LENT(&lane)).kind, LANE_F);
    write_byte(&lane, 2);
    IS(advances_of(&lane), 7);
    IS(lane_page_out(LENT(&lane)).kind, LANE_P);
    IS(advances_of(&lane), 6);
    IS(lane_page_out(LENT(&lane)).kind, LANE_P);
    IS(advances_of(&lane), 5);
    IS(lane_page_out(LENT(&lane)).kind, LANE_P); /* changed since */
    IS(advances_of(&lane), 5);
    IS(lane_page_out(LENT(&lane)).refusal, LANE_NONE_WAITS);
    lane_bytes cut = lane;
    count_down(&lane, 5);
    IS(lane_start(LENT(&cut)), LANE_DONE);
    IS(advances_of(&cut), 1);
}

/* Asked, it leaves record, card and memory byte by byte as they are. */
static void changes_nothing(void)
{
    lane_bytes lane = begun(), before;
    write_byte(&lane, 1);
    IS(lane_snapshot(LENT(&lane)), LANE_DONE);
    memcpy(&before, &lane, sizeof lane);
    IS(advances_of(&lane), 8);
    IS(memcmp(&before, &lane, sizeof lane), 0);
}

int main(void)
{
    refused();
    after_a_start();
    over_page_outs();
    changes_nothing();
    return 0;
}
