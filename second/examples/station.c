/* A session of the practice yard through the C face: open, read the clock, deliver, go back,
   take the digest, replay.  station.rs does the same in Rust; both print station.out. */

#include <inttypes.h>
#include <stdio.h>
#include "wuthracomb.h"

enum { W = 4, H = 3, B = 1 };

static const uint8_t cells[W * H] = {0, 0, 0, 0, 0, 0, 0, 1, 0, 0, 0, 0};
static const int32_t boxes[WUTHRACOMB_BOX_WORDS * B] = {0, 256, 256, 256};
static int32_t state[WUTHRACOMB_STATE_WORDS * B];
static int32_t rows[WUTHRACOMB_ROW_WORDS * B];
static uint8_t log_bytes[WUTHRACOMB_LOG_BYTES];
static uint64_t session[WUTHRACOMB_SESSION_WORDS];

/* The lent slices, in the order of every call. */
#define WORLD cells, sizeof cells, boxes, WUTHRACOMB_BOX_WORDS * B
#define STATE state, WUTHRACOMB_STATE_WORDS * B
#define LENT WORLD, STATE, rows, WUTHRACOMB_ROW_WORDS * B, log_bytes, sizeof log_bytes, \
             session, WUTHRACOMB_SESSION_WORDS

static void print_state(void)
{
    printf("  carrier 0: x %" PRId32 " y %" PRId32 " u %" PRId32 " v %" PRId32 " lever %" PRId32
           "\n", state[0], state[1], state[2], state[3], state[4]);
}

static void open_yard(void)
{
    printf("open: %" PRIu32 "\n", wuthracomb_open(W, H, B, 0, LENT));
    print_state();
}

static void read_clock(uint64_t reading)
{
    uint32_t number = wuthracomb_reading(reading, LENT);
    printf("reading %" PRIu64 ": %" PRIu32 ", steps %" PRIu64 ", remainder %" PRIu64 "\n", reading,
           number, session[WUTHRACOMB_SESSION_STEPS], session[WUTHRACOMB_SESSION_REMAINDER]);
    print_state();
}

static void deliver(uint32_t step, uint32_t carrier, uint32_t lever)
{
    uint8_t record[WUTHRACOMB_RECORD_BYTES];
    if (wuthracomb_write_record(step, carrier, lever, record, sizeof record) != WUTHRACOMB_DONE)
        return;
    printf("deliver step %" PRIu32 " carrier %" PRIu32 " lever %" PRIu32 ": %" PRIu32 "\n", step,
           carrier, lever, wuthracomb_deliver(record, sizeof record, LENT));
    print_state();
}

static void print_shown(void)
{
    double place[2] = {0, 0};
    uint32_t number = wuthracomb_shown(0, LENT, place, 2);
    printf("shown: %" PRIu32 ", %.3f %.3f\n", number, place[0], place[1]);
}

static void print_digest(void)
{
    uint32_t digest = 0;
    uint32_t number = wuthracomb_digest(LENT, &digest, 1);
    printf("digest: %" PRIu32 ", %08" PRIx32 "\n", number, digest);
}

/* Of the held part of the log only. */
static void replay(uint32_t steps)
{
    size_t held = (size_t)session[WUTHRACOMB_SESSION_HELD] * WUTHRACOMB_RECORD_BYTES;
    printf("replay to %" PRIu32 " steps: %" PRIu32 "\n", steps,
           wuthracomb_replay(W, H, B, steps, WORLD, STATE, log_bytes, held));
    print_state();
}

int main(void)
{
    open_yard();
    deliver(0, 0, 1);
    read_clock(100000);
    read_clock(110000);
    print_shown();
    deliver(2, 0, 9);
    deliver(2, 0, 9);
    deliver(2, 0, 3);
    print_digest();
    replay(5);
    print_digest();
    read_clock(5000);
    return 0;
}
