/*
 * The memory of a machine with tags, for the C program that drives one. It is allocated at its exact length, so that a tool which watches memory sees an access
 * past its ends. The layout is docs/MEMORY.md's.
 */
#ifndef TAGGED_H
#define TAGGED_H

#include <stdlib.h>

#include "layout.h"

/* What stands in the place of a capacity, the stretch of a link, the bytes of a tag's links, and where the tags' bytes stand. */
enum { MARK = 17, STRETCH = BENCH_VALUE_BYTES + 1, PLANE = 3105 * STRETCH, TAG_BYTES_AT = STRETCHES_AT + BENCH_TAGS * PLANE };

/* What stands in the room for a result before a call. */
enum { UNWRITTEN = 0x5a };

static uint8_t *memory;
static size_t length;

static bench_start_answer start(const struct sheet *sheet, uint8_t *mem, size_t bytes) {
    return bench_tagged_start((const uint8_t *)sheet->rows, strlen(sheet->rows), (const uint8_t *)sheet->kinds, strlen(sheet->kinds), mem, bytes);
}

static void begin(const struct sheet *sheet) {
    free(memory);
    length = BENCH_TAGGED_BYTES;
    memory = malloc(length);
    if (memory == NULL) {
        exit(2);
    }
    memset(memory, 0xa5, length);
    expect("start", start(sheet, memory, length).refusal, BENCH_ACCEPTED);
}

/* Where the stretch of a link under a tag begins. */
static size_t stretch_at(unsigned link, uint32_t tag) {
    return STRETCHES_AT + PLANE * (size_t)tag + STRETCH * (size_t)link;
}

/* A call gave this refusal and this count, and left the memory as it was. */
static void refused(const char *what, bench_answer answer, uint32_t refusal, const uint8_t *before) {
    expect(what, answer.refusal, refusal);
    expect(what, answer.count, 0);
    expect(what, length == 0 || memcmp(memory, before, length) == 0, 1);
}

/* All calls on a machine with tags give this refusal for the memory as it stands, and leave every byte. */
static void all_refuse(const char *what, uint32_t refusal) {
    static const uint8_t five[] = WHOLE(5);
    uint8_t *before = lend(memory, length), out[BENCH_RESULT_BYTES], held[BENCH_RESULT_BYTES];
    memset(out, UNWRITTEN, sizeof out);
    memcpy(held, out, sizeof out);
    bench_answer answers[] = {
        bench_tagged_push(memory, length, five, sizeof five),
        bench_tagged_push(memory, length, five, 1),
        bench_tagged_fire(memory, length, 0, 0),
        bench_tagged_fire(memory, length, UINT32_MAX, BENCH_TAGS),
        bench_tagged_run(memory, length, 10),
        bench_tagged_take(memory, length, 0, out, sizeof out),
        bench_tagged_take(memory, length, BENCH_TAGS, out, sizeof out),
    };
    for (size_t i = 0; i < sizeof answers / sizeof answers[0]; i++) {
        expect(what, answers[i].refusal, refusal);
        expect(what, answers[i].count, 0);
    }
    expect(what, length == 0 || memcmp(memory, before, length) == 0, 1);
    expect(what, (uint32_t)memcmp(out, held, sizeof out), 0);
    free(before);
}

/* One byte set to a value that is out of its range, and back. */
static void bad_byte(const char *what, size_t at, uint8_t value) {
    uint8_t held = memory[at];
    memory[at] = value;
    all_refuse(what, BENCH_ALTERED);
    memory[at] = held;
}

/* The memory is not refused with 31: a firing of no operator leaves all of it. */
static void stands(const char *what) {
    expect(what, bench_tagged_fire(memory, length, UINT32_MAX, 0).refusal, BENCH_NOT_ABLE);
}

static void good_byte(const char *what, size_t at, uint8_t value) {
    uint8_t held = memory[at];
    memory[at] = value;
    stands(what);
    memory[at] = held;
}

#endif
