/* Three balances, a page each, on a card. Money moves from one to the next over and over, and each
   move is a commit: killed at any time, the program goes on from the last one. */
#include "lane_file.h"

#include <stdio.h>
#include <stdlib.h>

static void done(int answer)
{
    if (answer != LANE_DONE) {
        fprintf(stderr, "balances: %s\n", lane_file_text(answer));
        exit(1);
    }
}

int main(int argc, char **argv)
{
    const char *card = argc > 1 ? argv[1] : "balances.card";
    const lane_file_options any_disk = {.promise = LANE_PROMISE_KILL}; /* a lane asks for more */
    const uint32_t pages[2] = {0, 3};                                  /* from OID 0 on, 3 */
    long balances[3][LANE_BLOCK / sizeof(long)];
    lane_file *lane;
    int answer = lane_file_open(&lane, card, &any_disk);
    if (answer == LANE_FILE_SYSTEM) /* not there yet */
        answer = lane_file_create(&lane, card, 12, pages, 2, &any_disk);
    done(answer);
    for (uint32_t oid = 0; oid < 3; oid++)
        done(lane_file_read(lane, oid, 0, balances[oid]));
    for (int n = 0;; n++) {
        printf("%d: %ld %ld %ld\n", n, *balances[0], *balances[1], *balances[2]);
        fflush(stdout);
        *balances[n % 3] -= n + 1;
        *balances[(n + 1) % 3] += n + 1;
        for (uint32_t oid = 0; oid < 3; oid++)
            done(lane_file_write(lane, oid, 0, 0, balances[oid], LANE_BLOCK));
        done(lane_file_commit(lane)); /* no cut takes it away from here on */
    }
}
