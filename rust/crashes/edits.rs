/// The slips: each is one line of the layer in C and what stands in its place.
const SLIPS: [Slip; 33] = [
    Slip {
        name: "no_flush_before_header",
        line: "return flush(lane);",
        instead: "return lane->marked ? hand_over(lane) : flush(lane);",
    },
    Slip {
        name: "no_flush_after_header",
        line: "lane->header = false;",
        instead: "if (lane->header) { lane->header = false; return hand_over(lane); }",
    },
    Slip {
        name: "no_flush_at_open",
        line: "answer = step(l);",
        instead: "(void)lane_advance(LENT(l));",
    },
    Slip {
        name: "header_before_flush",
        line: "return flush(lane);",
        instead: "return lane->marked ? LANE_DONE : flush(lane);",
    },
    Slip {
        name: "header_joined",
        line: "lane->gathered_len = 0;",
        instead: "lane->gathered_len = 0; \
                  if (n > 0 && lane->runs[0].first == 0) lane->runs[0].blocks = 2;",
    },
    Slip {
        name: "lost_page",
        line: "return gather(lane, report.block);",
        instead: "return report.kind == LANE_P ? LANE_DONE : gather(lane, report.block);",
    },
    Slip {
        name: "lost_directory",
        line: "return gather(lane, report.block);",
        instead: "return report.kind == LANE_D ? LANE_DONE : gather(lane, report.block);",
    },
    Slip {
        name: "lost_trailer",
        line: "return gather(lane, report.block);",
        instead: "return report.kind == LANE_T ? LANE_DONE : gather(lane, report.block);",
    },
    Slip {
        name: "lost_home",
        line: "return gather(lane, report.block);",
        instead: "return report.kind == LANE_M ? LANE_DONE : gather(lane, report.block);",
    },
    Slip {
        name: "misplaced_one",
        line: "error = write_all(d->fd, card + at, runs[i].blocks * LANE_BLOCK, at);",
        instead: "error = write_all(d->fd, card + at, runs[i].blocks * LANE_BLOCK, \
                                    at > 512 ? at - 512 : at);",
    },
    Slip {
        name: "misplaced_several",
        line: "w->aio_offset = (int64_t)at;",
        instead: "w->aio_offset = (int64_t)(at > 512 ? at - 512 : at);",
    },
    Slip {
        name: "neighbour_rewritten",
        line: "lane->gathered_len = 0;",
        instead: "lane->gathered_len = 0; \
                  if (n > 0 && lane->runs[n - 1].first > 0 && \
                      (lane->runs[n - 1].first + lane->runs[n - 1].blocks) * 512 < lane->card_len) \
                      lane->runs[n - 1].blocks++;",
    },
    Slip {
        name: "goes_on_after_flush",
        line: "lane->stopped = true;",
        instead: "lane->stopped = answer == LANE_FILE_WRITE;",
    },
    Slip {
        name: "goes_on_after_write",
        line: "lane->stopped = true;",
        instead: "lane->stopped = answer == LANE_FILE_FLUSH;",
    },
    Slip {
        name: "done_before_flush",
        line: "while (answer == LANE_DONE && (lane->marked || lane->header))",
        instead: "while (answer == LANE_DONE && lane->marked)",
    },
    Slip {
        name: "failed_write_done",
        line: "return error == 0 ? LANE_DONE : stop(lane, LANE_FILE_WRITE, error);",
        instead: "return LANE_DONE;",
    },
    Slip {
        name: "failed_flush_done",
        line: "return error == 0 ? LANE_DONE : stop(lane, LANE_FILE_FLUSH, error);",
        instead: "return LANE_DONE;",
    },
    Slip {
        name: "short_write_done",
        line: "if (put >= 0 && (size_t)put == n)",
        instead: "if (put >= 0)",
    },
    Slip {
        name: "rest_of_write_done",
        line: "return put < 0 ? reason() : EIO;",
        instead: "return put < 0 ? reason() : 0;",
    },
    Slip {
        name: "short_completion_done",
        line: "if ((uint64_t)events[i].res != events[i].data)",
        instead: "if (false)",
    },
    Slip {
        name: "failed_completion_done",
        line: "error = aio_error(d->events, (size_t)ended);",
        instead: "error = 0;",
    },
    Slip {
        name: "refused_submit_done",
        line: "return refused != 0 ? refused : error;",
        instead: "return error;",
    },
    Slip {
        name: "not_waited_for",
        line: "left -= (size_t)ended;",
        instead: "left = 0;",
    },
    Slip {
        name: "flush_retried",
        line: "return fdatasync(fd) < 0 ? reason() : 0;",
        instead: "return fdatasync(fd) < 0 && fdatasync(fd) < 0 ? reason() : 0;",
    },
    Slip {
        name: "open_writes",
        line: "answer = step(l);",
        instead: "answer = lane_file_settle(l);",
    },
    Slip {
        name: "close_writes",
        line: "const lane_drive drive = lane->drive;",
        instead: "hand_over(lane); const lane_drive drive = lane->drive;",
    },
    Slip {
        name: "advance_keeps_back",
        line: "int handed = hand_over(lane);",
        instead: "int handed = LANE_DONE;",
    },
    Slip {
        name: "forecast_to_header",
        line: "*advances = foretold.advances;",
        instead: "*advances = foretold.advances > 0 ? foretold.advances - 1 : 0;",
    },
    Slip {
        name: "forecast_left_open",
        line: "*advances = 0;",
        instead: "",
    },
    Slip {
        name: "create_not_flushed",
        line: "error = drive->flush(drive->self);",
        instead: "error = 0;",
    },
    Slip {
        name: "create_header_first",
        line: "memset(card, 0, LANE_BLOCK);",
        instead: "",
    },
    Slip {
        name: "folder_not_synced",
        line: "return sync_folder(path);",
        instead: "return LANE_DONE;",
    },
    Slip {
        name: "file_left",
        line: "if (answer != LANE_DONE && made)",
        instead: "if (false)",
    },
];
