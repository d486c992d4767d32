/*
 * How firmware drives a machine: a beacon's set is pushed as soon as it is plugged in, the graph runs a little between two
 * beacons, and a verdict is shown as soon as it can be taken. Here the beacons' readings stand in a table, and what the
 * bench would show is printed, that of the service hatch at the end. The formula is the lesser of two readings.
 */
#include <inttypes.h>
#include <stdio.h>
#include <stdlib.h>
#include <string.h>

#include "bench.h"

#define CAPACITY 2
#define READINGS 2
/* A few firings between two looks at what is connected. */
#define FIRINGS 3

/* A static stretch, as firmware without a heap has it. */
static uint8_t memory[BENCH_MACHINE_BYTES(CAPACITY)];

/* One record, lent to every call from the start on. */
static bench_tally tally;

static const char sheet[] =
    "     1     0     0     0     0\n"
    "     1     1     0     0     0\n"
    "     4     1     2     0     0\n"
    "     5     6     3     0     0\n"
    "     1     0     0     0     0\n"
    "     1     1     0     0     0\n"
    "     7     4     5     6     0\n";

/* Both readings are whole numbers. */
static const char kinds[] = "WW\n";

/* A whole number as the bytes of a value. */
static void put_whole(uint8_t *to, int32_t number) {
    uint32_t bits = (uint32_t)number;
    to[0] = BENCH_WHOLE;
    for (int i = 0; i < 4; i++) {
        to[1 + i] = (uint8_t)(bits >> (8 * i));
    }
}

static void show(const uint8_t *value) {
    uint32_t bits = 0;
    for (int i = 0; i < 4; i++) {
        bits |= (uint32_t)value[1 + i] << (8 * i);
    }
    switch (value[0]) {
    case BENCH_WHOLE:
        /* two's complement, without a conversion that C leaves to the compiler */
        printf(" %" PRId64, bits < 0x80000000u ? (int64_t)bits : (int64_t)bits - 0x100000000);
        break;
    case BENCH_TRUTH:
        printf(" %c", bits == 1 ? 'T' : 'F');
        break;
    default:
        printf(" %c", bits == BENCH_ERR_ZERO_DIVISOR ? 'Z' : bits == BENCH_ERR_OUT_OF_RANGE ? 'V' : 'E');
    }
}

static void fail(const char *what, uint32_t refusal) {
    fprintf(stderr, "%s refused with %" PRIu32 "\n", what, refusal);
    exit(1);
}

/* Takes every verdict that is ready. */
static unsigned show_ready(unsigned shown) {
    uint8_t result[BENCH_RESULT_BYTES];
    for (;;) {
        bench_answer answer = bench_take(memory, sizeof memory, result, sizeof result, &tally);
        if (answer.refusal == BENCH_NO_RESULT) {
            return shown;
        }
        if (answer.refusal != BENCH_ACCEPTED) {
            fail("take", answer.refusal);
        }
        printf("beacon %u:", shown + 1);
        for (uint32_t i = 0; i < answer.count; i++) {
            show(result + BENCH_VALUE_BYTES * i);
        }
        printf("\n");
        shown++;
    }
}

static void show_hatch(void) {
    printf("firings %" PRIu32 ", takes %" PRIu32 ", refused pushes %" PRIu32 "\n", tally.firings, tally.takes, tally.refused);
}

int main(void) {
    static const int32_t beacons[][READINGS] = {{3, 5}, {7, 7}, {-2, 2}, {2147483647, -2147483647 - 1}, {40, 39}};
    const unsigned count = sizeof beacons / sizeof beacons[0];
    bench_start_answer started = bench_start((const uint8_t *)sheet, sizeof sheet - 1, (const uint8_t *)kinds, sizeof kinds - 1, CAPACITY, memory,
                                             sizeof memory, &tally);
    if (started.refusal != BENCH_ACCEPTED) {
        fail("start", started.refusal);
    }
    if (started.inputs != READINGS) {
        fprintf(stderr, "the formula has %" PRIu32 " inputs\n", started.inputs);
        return 1;
    }
    unsigned pushed = 0, shown = 0;
    while (shown < count) {
        /* A beacon that is plugged in while the links are full waits for its turn; each try that is refused is counted. */
        if (pushed < count) {
            uint8_t set[BENCH_VALUE_BYTES * READINGS];
            for (int i = 0; i < READINGS; i++) {
                put_whole(set + BENCH_VALUE_BYTES * i, beacons[pushed][i]);
            }
            bench_answer answer = bench_push(memory, sizeof memory, set, sizeof set, &tally);
            if (answer.refusal == BENCH_ACCEPTED) {
                pushed++;
            } else if (answer.refusal != BENCH_FULL && answer.refusal != BENCH_UNTAKEN) {
                fail("push", answer.refusal);
            }
        }
        bench_answer ran = bench_run(memory, sizeof memory, FIRINGS, &tally);
        if (ran.refusal != BENCH_ACCEPTED && ran.refusal != BENCH_UNFINISHED) {
            fail("run", ran.refusal);
        }
        shown = show_ready(shown);
    }
    show_hatch();
    return 0;
}
