/*
 * A machine's memory, for the C programs that drive one. It is allocated at its exact length, so that a tool which watches memory sees an access past its
 * ends. The layout is docs/MEMORY.md's.
 */
#ifndef MACHINE_H
#define MACHINE_H

#include <stdlib.h>

#include "layout.h"

static uint8_t *memory;
static size_t length;

/* The record that every call is lent, where a program does not look at another one. */
static bench_tally tally;

static inline void begin(const struct sheet *sheet, uint32_t capacity) {
    free(memory);
    length = BENCH_MACHINE_BYTES(capacity);
    memory = malloc(length);
    if (memory == NULL) {
        exit(2);
    }
    memset(memory, 0xa5, length);
    const uint8_t *rows = (const uint8_t *)sheet->rows, *kinds = (const uint8_t *)sheet->kinds;
    bench_start_answer started = bench_start(rows, strlen(sheet->rows), kinds, strlen(sheet->kinds), capacity, memory, length, &tally);
    expect("start", started.refusal, BENCH_ACCEPTED);
}

/* All calls on a machine give this refusal for the memory as it stands, and leave every byte; of the record they count the pushes. */
static inline void all_refuse(const char *what, uint32_t refusal) {
    static const uint8_t five[] = WHOLE(5);
    uint8_t *before = lend(memory, length), out[BENCH_RESULT_BYTES], held[BENCH_RESULT_BYTES];
    memset(out, 0x5a, sizeof out);
    memcpy(held, out, sizeof out);
    tally = (bench_tally){1, 2, 3};
    bench_answer answers[] = {
        bench_push(memory, length, five, sizeof five, &tally),
        bench_push_tray(memory, length, five, sizeof five, 1, &tally),
        bench_push_tray(memory, length, NULL, 0, 0, &tally),
        bench_fire(memory, length, 0, &tally),
        bench_run(memory, length, 10, &tally),
        bench_take(memory, length, out, sizeof out, &tally),
    };
    for (size_t i = 0; i < sizeof answers / sizeof answers[0]; i++) {
        expect(what, answers[i].refusal, refusal);
        expect(what, answers[i].count, 0);
    }
    bench_rounds_answer rounds = bench_run_rounds(memory, length, 10, &tally);
    expect(what, rounds.refusal, refusal);
    expect(what, rounds.rounds == 0 && rounds.firings == 0, 1);
    expect(what, tally.firings == 1 && tally.takes == 2 && tally.refused == 3 + 3, 1);
    expect(what, length == 0 || memcmp(memory, before, length) == 0, 1);
    expect(what, (uint32_t)memcmp(out, held, sizeof out), 0);
    free(before);
}

/* One byte set to a value that is out of its range, and back. */
static inline void bad_byte(const char *what, size_t at, uint8_t value) {
    uint8_t held = memory[at];
    memory[at] = value;
    all_refuse(what, BENCH_ALTERED);
    memory[at] = held;
}

/* The memory is not refused with 31. */
static inline void stands(const char *what) {
    uint8_t *copy = lend(memory, length);
    expect(what, bench_fire(copy, length, UINT32_MAX, &tally).refusal, BENCH_NOT_ABLE);
    free(copy);
}

static inline void good_byte(const char *what, size_t at, uint8_t value) {
    uint8_t held = memory[at];
    memory[at] = value;
    stands(what);
    memory[at] = held;
}

#endif
