/* What the C programs that test the calls share: counted checks, bytes to lend, sheets, and errs by their reasons. */
#ifndef CHECK_H
#define CHECK_H

#include <inttypes.h>
#include <stdio.h>
#include <stdlib.h>
#include <string.h>

#include "bench.h"

static unsigned checks, failures;

static void expect(const char *what, uint32_t got, uint32_t wanted) {
    checks++;
    if (got != wanted) {
        failures++;
        printf("%s: %" PRIu32 ", not %" PRIu32 "\n", what, got, wanted);
    }
}

/* The last line, and the program's exit status. */
static int tell(void) {
    printf("%u checks, %u failed\n", checks, failures);
    return failures == 0 ? 0 : 1;
}

/* A copy of some bytes at its exact length; of no bytes it may be NULL. */
static inline uint8_t *lend(const void *bytes, size_t length) {
    uint8_t *copy = malloc(length);
    if (copy == NULL && length > 0) {
        exit(2);
    }
    if (length > 0) {
        memcpy(copy, bytes, length);
    }
    return copy;
}

/* A formula sheet and its kinds line. */
struct sheet {
    const char *rows, *kinds;
};

/* The rows of "for x2 = x1 do if x2 then iter x2 else x0", which loops without end where x1 is true. The loop is row 7. */
#define LOOP_ROWS \
    "     1     1     0     0     0\n" \
    "     1     2     0     0     0\n" \
    "     1     2     0     0     0\n" \
    "     9     3     0     0     0\n" \
    "     1     0     0     0     0\n" \
    "     7     2     4     5     0\n" \
    "     8     2     1     1     6\n"

/* "if x0 < x1 then x0 else x1": the lesser of two. */
static const struct sheet lesser_of_two = {
    "     1     0     0     0     0\n"
    "     1     1     0     0     0\n"
    "     4     1     2     0     0\n"
    "     5     6     3     0     0\n"
    "     1     0     0     0     0\n"
    "     1     1     0     0     0\n"
    "     7     4     5     6     0\n",
    "WW\n"};

/* "for i, y = n, 1 do if 1 < i then iter i - 1, y * i else y": constants, copies, T, F, M or E, IC, FM and FS gates. */
static const struct sheet factorial = {
    "     1     2     0     0     0\n"
    "     2     1     0     0     0\n"
    "     4     1     2     0     0\n"
    "     2     1     0     0     0\n"
    "     1     0     0     0     0\n"
    "     4     4     5     0     0\n"
    "     5     6     6     0     0\n"
    "     1     0     0     0     0\n"
    "     2     1     0     0     0\n"
    "     4     8     9     0     0\n"
    "     5     2    10     0     0\n"
    "     1     1     0     0     0\n"
    "     1     0     0     0     0\n"
    "     4    12    13     0     0\n"
    "     5     3    14     0     0\n"
    "     4    11    15     0     0\n"
    "     9    16     0     0     0\n"
    "     1     1     0     0     0\n"
    "     7     7    17    18     0\n"
    "     8     0     2     3    19\n",
    "W\n"};

/* Both inputs as a pair, a number and a truth: no operator, and the result links are the input links. */
static const struct sheet pair = {
    "     1     0     0     0     0\n"
    "     1     1     0     0     0\n"
    "     4     1     2     0     0\n",
    "WT\n"};

/* "x0 / x1, x0 + x1" */
static const struct sheet quotient_and_sum = {
    "     1     0     0     0     0\n"
    "     1     1     0     0     0\n"
    "     4     1     2     0     0\n"
    "     5     4     3     0     0\n"
    "     1     0     0     0     0\n"
    "     1     1     0     0     0\n"
    "     4     5     6     0     0\n"
    "     5     1     7     0     0\n"
    "     4     4     8     0     0\n",
    "WW\n"};

/* "if x0 then x1, x0 else x0, x1" */
static const struct sheet chosen_pair = {
    "     1     0     0     0     0\n"
    "     1     1     0     0     0\n"
    "     1     0     0     0     0\n"
    "     4     2     3     0     0\n"
    "     1     0     0     0     0\n"
    "     1     1     0     0     0\n"
    "     4     5     6     0     0\n"
    "     7     1     4     7     0\n",
    "TT\n"};

/* Values as bytes. */
#define LEAST {BENCH_WHOLE, 0, 0, 0, 0x80}
#define GREATEST {BENCH_WHOLE, 0xff, 0xff, 0xff, 0x7f}
#define MINUS_ONE {BENCH_WHOLE, 0xff, 0xff, 0xff, 0xff}
#define WHOLE(n) {BENCH_WHOLE, n, 0, 0, 0}
#define TRUE_VALUE {BENCH_TRUTH, 1, 0, 0, 0}
#define FALSE_VALUE {BENCH_TRUTH, 0, 0, 0, 0}
#define E_VALUE {BENCH_ERR, BENCH_ERR_OTHER, 0, 0, 0}
#define Z_VALUE {BENCH_ERR, BENCH_ERR_ZERO_DIVISOR, 0, 0, 0}
#define V_VALUE {BENCH_ERR, BENCH_ERR_OUT_OF_RANGE, 0, 0, 0}

/* Two inputs and two results each: where a reason comes from, which of two is handed on, and that a test takes none along. */
static const struct {
    const char *what;
    const struct sheet *sheet;
    uint8_t set[2][BENCH_VALUE_BYTES], result[2][BENCH_VALUE_BYTES];
} reasons[] = {
    {"a zero divisor", &quotient_and_sum, {WHOLE(7), WHOLE(0)}, {Z_VALUE, WHOLE(7)}},
    {"least by -1", &quotient_and_sum, {LEAST, MINUS_ONE}, {V_VALUE, V_VALUE}},
    {"a sum out of range", &quotient_and_sum, {GREATEST, WHOLE(1)}, {GREATEST, V_VALUE}},
    {"Z, V", &quotient_and_sum, {Z_VALUE, V_VALUE}, {Z_VALUE, Z_VALUE}},
    {"V, Z", &quotient_and_sum, {V_VALUE, Z_VALUE}, {V_VALUE, V_VALUE}},
    {"E, Z", &quotient_and_sum, {E_VALUE, Z_VALUE}, {E_VALUE, E_VALUE}},
    {"Z as a divisor", &quotient_and_sum, {WHOLE(7), Z_VALUE}, {Z_VALUE, Z_VALUE}},
    {"Z, V as they are", &pair, {Z_VALUE, V_VALUE}, {Z_VALUE, V_VALUE}},
    {"V, E as they are", &pair, {V_VALUE, E_VALUE}, {V_VALUE, E_VALUE}},
    {"V behind a true test", &chosen_pair, {TRUE_VALUE, V_VALUE}, {V_VALUE, TRUE_VALUE}},
    {"Z behind a false test", &chosen_pair, {FALSE_VALUE, Z_VALUE}, {FALSE_VALUE, Z_VALUE}},
    {"a test that is Z", &chosen_pair, {Z_VALUE, V_VALUE}, {E_VALUE, E_VALUE}},
    {"a test that is V", &chosen_pair, {V_VALUE, TRUE_VALUE}, {E_VALUE, E_VALUE}},
};

/* An err whose reason is none. */
static const uint8_t no_reasons[][BENCH_VALUE_BYTES] = {
    {BENCH_ERR, BENCH_ERR_OUT_OF_RANGE + 1, 0, 0, 0}, {BENCH_ERR, 0xff, 0, 0, 0}, {BENCH_ERR, 0, 1, 0, 0}, {BENCH_ERR, 1, 0, 0, 1}};

#endif
