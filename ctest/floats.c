/*
 * Floats through the C interface: constants of row kind 10, each operator's results bit for bit, some known and many beside C's own, kinds with R, and patterns that are not finite, in a set
 * and in a machine's memory. All goes through an evaluation and through push, run and take.
 */
#include <math.h>

#include "machine.h"

enum { HELD = 0x5a };

/* Patterns. */
#define PLUS_ZERO 0u
#define MINUS_ZERO 0x80000000u
#define ONE 0x3f800000u
#define TWO 0x40000000u
#define TENTH 0x3dcccccdu
#define FIFTH 0x3e4ccccdu
#define GREATEST_FLOAT 0x7f7fffffu
#define LEAST_FLOAT 1u
#define MINUS(pattern) ((pattern) ^ MINUS_ZERO)

static const uint32_t not_finite[] = {0x7f800000, 0x7f800001, 0x7fc00000, 0x7fffffff, 0xff800000, 0xffc00000, 0xffffffff};
static const uint32_t finite[] = {PLUS_ZERO, LEAST_FLOAT, 0x007fffff, 0x00800000, ONE, GREATEST_FLOAT, MINUS_ZERO, MINUS(ONE), MINUS(GREATEST_FLOAT)};

enum { NOT_FINITE = sizeof not_finite / sizeof not_finite[0], FINITE = sizeof finite / sizeof finite[0] };

static void put_value(uint8_t *at, uint8_t tag, uint32_t bits) {
    at[0] = tag;
    for (int byte = 0; byte < 4; byte++) {
        at[1 + byte] = (uint8_t)(bits >> 8 * byte);
    }
}

/* What an evaluation and a machine give for one set: one value, or 12. */
static void gives(const char *what, const struct sheet *sheet, const uint8_t *set, size_t bytes, const uint8_t *wanted) {
    const uint8_t *rows = (const uint8_t *)sheet->rows, *kinds = (const uint8_t *)sheet->kinds;
    uint8_t out[BENCH_RESULT_BYTES], held[BENCH_RESULT_BYTES];
    memset(out, HELD, sizeof out);
    memcpy(held, out, sizeof out);
    uint32_t refusal = wanted == NULL ? BENCH_SET : BENCH_ACCEPTED;
    bench_evaluate_answer answer =
        bench_evaluate(rows, strlen(sheet->rows), kinds, strlen(sheet->kinds), set, bytes, 0, out, sizeof out);
    expect(what, answer.refusal, refusal);
    expect(what, (uint32_t)memcmp(out, wanted == NULL ? held : wanted, wanted == NULL ? sizeof held : BENCH_VALUE_BYTES), 0);
    begin(sheet, 1);
    uint8_t *before = lend(memory, length);
    expect(what, bench_push(memory, length, set, bytes, &tally).refusal, refusal);
    if (wanted == NULL) {
        expect(what, memcmp(memory, before, length) == 0, 1);
    } else {
        expect(what, bench_run(memory, length, 100, &tally).refusal, BENCH_ACCEPTED);
        memset(out, HELD, sizeof out);
        expect(what, bench_take(memory, length, out, sizeof out, &tally).count, 1);
        expect(what, (uint32_t)memcmp(out, wanted, BENCH_VALUE_BYTES), 0);
    }
    free(before);
}

enum { ADD = 1, SUBTRACT, MULTIPLY, DIVIDE, REMAINDER, LESS, EQUAL, AND, OR, NOT, NEGATE };

/* A sheet of one operator over inputs. */
static struct sheet operator_sheet(unsigned code, const char *kinds) {
    static char text[200];
    const char *pair_of_names = "     1     0     0     0     0\n     1     1     0     0     0\n     4     1     2     0     0\n";
    const char *name = "     1     0     0     0     0\n";
    int one = code == NOT || code == NEGATE;
    snprintf(text, sizeof text, "%s     5%6u%6u     0     0\n", one ? name : pair_of_names, code % 100, one ? 1u : 3u);
    struct sheet sheet = {text, kinds};
    return sheet;
}

static const struct {
    const char *what;
    unsigned code;
    uint32_t x, y;
    uint8_t tag;
    uint32_t bits;
} results[] = {
    {"0.1 + 0.2", ADD, TENTH, FIFTH, BENCH_REAL, 1050253722},
    {"2^24 + 1", ADD, 0x4b800000, ONE, BENCH_REAL, 0x4b800000},
    {"2^24 + 3", ADD, 0x4b800000, 0x40400000, BENCH_REAL, 0x4b800002},
    {"-0 + -0", ADD, MINUS_ZERO, MINUS_ZERO, BENCH_REAL, MINUS_ZERO},
    {"-0 + 0", ADD, MINUS_ZERO, PLUS_ZERO, BENCH_REAL, PLUS_ZERO},
    {"the greatest twice", ADD, GREATEST_FLOAT, GREATEST_FLOAT, BENCH_ERR, BENCH_ERR_OUT_OF_RANGE},
    {"1 - 1", SUBTRACT, ONE, ONE, BENCH_REAL, PLUS_ZERO},
    {"1 - 2", SUBTRACT, ONE, TWO, BENCH_REAL, MINUS(ONE)},
    {"the least normal less the least", SUBTRACT, 0x00800000, LEAST_FLOAT, BENCH_REAL, 0x007fffff},
    {"the greatest * 2", MULTIPLY, GREATEST_FLOAT, TWO, BENCH_ERR, BENCH_ERR_OUT_OF_RANGE},
    {"the least * 1/2", MULTIPLY, LEAST_FLOAT, 0x3f000000, BENCH_REAL, PLUS_ZERO},
    {"three times the least * 1/2", MULTIPLY, 3, 0x3f000000, BENCH_REAL, 2},
    {"the least * -1/2", MULTIPLY, LEAST_FLOAT, 0xbf000000, BENCH_REAL, MINUS_ZERO},
    {"1 / 3", DIVIDE, ONE, 0x40400000, BENCH_REAL, 1051372203},
    {"the least / 2", DIVIDE, LEAST_FLOAT, TWO, BENCH_REAL, PLUS_ZERO},
    {"the greatest / the least", DIVIDE, GREATEST_FLOAT, LEAST_FLOAT, BENCH_ERR, BENCH_ERR_OUT_OF_RANGE},
    {"1 / 0", DIVIDE, ONE, PLUS_ZERO, BENCH_ERR, BENCH_ERR_ZERO_DIVISOR},
    {"1 / -0", DIVIDE, ONE, MINUS_ZERO, BENCH_ERR, BENCH_ERR_ZERO_DIVISOR},
    {"0 / 0", DIVIDE, PLUS_ZERO, PLUS_ZERO, BENCH_ERR, BENCH_ERR_ZERO_DIVISOR},
    {"0 / -1", DIVIDE, PLUS_ZERO, MINUS(ONE), BENCH_REAL, MINUS_ZERO},
    {"-0 < 0", LESS, MINUS_ZERO, PLUS_ZERO, BENCH_TRUTH, 0},
    {"-2 < -1", LESS, MINUS(TWO), MINUS(ONE), BENCH_TRUTH, 1},
    {"1 < 2", LESS, ONE, TWO, BENCH_TRUTH, 1},
    {"-0 = 0", EQUAL, MINUS_ZERO, PLUS_ZERO, BENCH_TRUTH, 1},
    {"1 = the next", EQUAL, ONE, ONE + 1, BENCH_TRUTH, 0},
    {"-(0)", NEGATE, PLUS_ZERO, 0, BENCH_REAL, MINUS_ZERO},
    {"-(-1)", NEGATE, MINUS(ONE), 0, BENCH_REAL, ONE},
};

static void operators(void) {
    for (size_t i = 0; i < sizeof results / sizeof results[0]; i++) {
        int one = results[i].code == NEGATE;
        struct sheet sheet = operator_sheet(results[i].code, one ? "R\n" : "RR\n");
        uint8_t set[2 * BENCH_VALUE_BYTES], wanted[BENCH_VALUE_BYTES];
        put_value(set, BENCH_REAL, results[i].x);
        put_value(set + BENCH_VALUE_BYTES, BENCH_REAL, results[i].y);
        put_value(wanted, results[i].tag, results[i].bits);
        gives(results[i].what, &sheet, set, one ? BENCH_VALUE_BYTES : sizeof set, wanted);
        /* An err in either place is handed on. */
        for (size_t place = 0; place < (one ? 1 : 2); place++) {
            uint8_t with_err[sizeof set], z[] = Z_VALUE;
            memcpy(with_err, set, sizeof set);
            memcpy(with_err + BENCH_VALUE_BYTES * place, z, sizeof z);
            gives(results[i].what, &sheet, with_err, one ? BENCH_VALUE_BYTES : sizeof set, z);
        }
    }
}

/* What an operator of two floats gives with C's own. */
static void own(unsigned code, uint32_t p, uint32_t q, uint8_t *wanted) {
    float x, y;
    memcpy(&x, &p, sizeof x);
    memcpy(&y, &q, sizeof y);
    if (code == LESS || code == EQUAL) {
        put_value(wanted, BENCH_TRUTH, code == LESS ? x < y : x == y);
    } else if (code == DIVIDE && y == 0) {
        put_value(wanted, BENCH_ERR, BENCH_ERR_ZERO_DIVISOR);
    } else {
        float z = code == ADD ? x + y : code == SUBTRACT ? x - y : code == MULTIPLY ? x * y : code == DIVIDE ? x / y : -x;
        uint32_t bits;
        memcpy(&bits, &z, sizeof bits);
        put_value(wanted, isfinite(z) ? BENCH_REAL : BENCH_ERR, isfinite(z) ? bits : BENCH_ERR_OUT_OF_RANGE);
    }
}

/* Each operator on every pair of these patterns, with both signs: zeros, subnormal numbers, one and its neighbours, ties, the greatest. */
static void beside_own(void) {
    static const unsigned codes[] = {ADD, SUBTRACT, MULTIPLY, DIVIDE, LESS, EQUAL, NEGATE};
    static const uint32_t patterns[] = {0,          1,   2,          3,     0x007fffff, 0x00800000, 0x00800001, 0x33800000, 0x3eaaaaab, 0x3f000000, 0x3f7fffff,
                                        ONE,        ONE + 1, 0x40400000, TENTH, 0x4b7fffff, 0x4b800001, 0x5f800000, 0x73000000, 0x7f000000, GREATEST_FLOAT};
    enum { PATTERNS = 2 * sizeof patterns / sizeof patterns[0] };
    for (size_t c = 0; c < sizeof codes / sizeof codes[0]; c++) {
        int one = codes[c] == NEGATE;
        struct sheet sheet = operator_sheet(codes[c], one ? "R\n" : "RR\n");
        for (unsigned pair = 0; pair < PATTERNS * PATTERNS; pair++) {
            unsigned i = pair / PATTERNS, j = pair % PATTERNS;
            uint32_t p = patterns[i / 2] ^ (i % 2 ? MINUS_ZERO : 0), q = patterns[j / 2] ^ (j % 2 ? MINUS_ZERO : 0);
            uint8_t set[2 * BENCH_VALUE_BYTES], wanted[BENCH_VALUE_BYTES];
            put_value(set, BENCH_REAL, p);
            put_value(set + BENCH_VALUE_BYTES, BENCH_REAL, q);
            own(codes[c], p, q, wanted);
            gives("beside C's own", &sheet, set, one ? BENCH_VALUE_BYTES : sizeof set, wanted);
        }
    }
}

static void constants(void) {
    static const uint32_t patterns[][2] = {{0, PLUS_ZERO}, {1, 981668463}, {100, TENTH}, {1000, ONE}, {999999, 1148846064}};
    for (size_t i = 0; i < sizeof patterns / sizeof patterns[0]; i++) {
        char row[32];
        snprintf(row, sizeof row, "    10%6u     0     0     0\n", (unsigned)(patterns[i][0] % 1000000));
        struct sheet sheet = {row, "\n"};
        uint8_t wanted[BENCH_VALUE_BYTES];
        put_value(wanted, BENCH_REAL, patterns[i][1]);
        gives("a constant", &sheet, NULL, 0, wanted);
    }
    static const char *const unlisted[] = {
        "    10     1     1     0     0\n", "    10     1     0     1     0\n", "    10     1     0     0     1\n", "    11     0     0     0     0\n"};
    for (size_t i = 0; i < sizeof unlisted / sizeof unlisted[0]; i++) {
        bench_read_answer answer = bench_read((const uint8_t *)unlisted[i], strlen(unlisted[i]), (const uint8_t *)"\n", 1);
        expect("an unlisted field, or kind 11", answer.refusal, BENCH_RANGE);
        expect("an unlisted field, or kind 11", answer.row, 1);
    }
}

/* Whole numbers and floats in one operator are a wrong kind; 5 and 8 to 10 take no floats. */
static void kinds(void) {
    static const char *const mixed[] = {"RW\n", "WR\n", "RT\n", "TR\n"};
    for (unsigned code = ADD; code <= OR; code++) {
        uint32_t takes = code == REMAINDER || code >= AND ? BENCH_KINDS : BENCH_ACCEPTED;
        struct sheet sheet = operator_sheet(code, "RR\n");
        const uint8_t *rows = (const uint8_t *)sheet.rows;
        expect("two floats", bench_read(rows, strlen(sheet.rows), (const uint8_t *)"RR\n", 3).refusal, takes);
        for (size_t i = 0; i < sizeof mixed / sizeof mixed[0]; i++) {
            bench_read_answer answer = bench_read(rows, strlen(sheet.rows), (const uint8_t *)mixed[i], 3);
            expect("two kinds", answer.refusal, BENCH_KINDS);
            expect("two kinds", answer.row, 4);
        }
    }
    struct sheet not = operator_sheet(NOT, "R\n");
    expect("not of a float", bench_read((const uint8_t *)not.rows, strlen(not.rows), (const uint8_t *)"R\n", 2).refusal, BENCH_KINDS);
    /* let x1 = x0 + 1 in x1 + a constant, the last sum in row 4: behind the fault the kind goes on as W, so that 1.0 is at fault there and 1 is not. */
    static const char whole[] =
        "     1     1     0     0     0\n     2     1     0     0     0\n     4     1     2     0     0\n     5     1     3     0     0\n"
        "     1     0     0     0     0\n     2     1     0     0     0\n     4     5     6     0     0\n     5     1     7     0     0\n"
        "     6     1     1     8     4\n";
    char fraction[sizeof whole];
    memcpy(fraction, whole, sizeof whole);
    memcpy(fraction + 31, "    10  1000", 12);
    expect("a fault goes on as W", bench_read((const uint8_t *)whole, strlen(whole), (const uint8_t *)"R\n", 2).row, 8);
    expect("a fault goes on as W", bench_read((const uint8_t *)fraction, strlen(fraction), (const uint8_t *)"R\n", 2).row, 4);
}

static const struct sheet float_alone = {"     1     0     0     0     0\n", "R\n"};
static const struct sheet number_alone = {"     1     0     0     0     0\n", "W\n"};

static void sets(void) {
    uint8_t value[BENCH_VALUE_BYTES];
    for (size_t i = 0; i < FINITE; i++) {
        put_value(value, BENCH_REAL, finite[i]);
        gives("a finite pattern", &float_alone, value, sizeof value, value);
        gives("a float for a number", &number_alone, value, sizeof value, NULL);
    }
    for (size_t i = 0; i < NOT_FINITE; i++) {
        put_value(value, BENCH_REAL, not_finite[i]);
        gives("a pattern that is not finite", &float_alone, value, sizeof value, NULL);
    }
    static const uint8_t others[][BENCH_VALUE_BYTES] = {WHOLE(0), TRUE_VALUE, {BENCH_REAL + 1, 0, 0, 0, 0}};
    for (size_t i = 0; i < sizeof others / sizeof others[0]; i++) {
        gives("another kind for a float", &float_alone, others[i], BENCH_VALUE_BYTES, NULL);
    }
}

/* x0 + 0.5: a token on the input link, and the constant's register. */
static const struct sheet half_more = {
    "     1     0     0     0     0\n    10   500     0     0     0\n     4     1     2     0     0\n     5     1     3     0     0\n", "R\n"};

static void stored(const char *what, size_t at, uint8_t tag, uint32_t bits, int good) {
    uint8_t held[BENCH_VALUE_BYTES];
    memcpy(held, memory + at, sizeof held);
    put_value(memory + at, tag, bits);
    if (good) {
        stands(what);
    } else {
        all_refuse(what, BENCH_ALTERED);
    }
    memcpy(memory + at, held, sizeof held);
}

static void altered(void) {
    enum { CONSTANT = 12, STRETCH = BENCH_VALUE_BYTES + 1, RECORD_BYTES = 16 };
    uint8_t one[BENCH_VALUE_BYTES];
    put_value(one, BENCH_REAL, ONE);
    begin(&half_more, 1);
    expect("a float", bench_push(memory, length, one, sizeof one, &tally).refusal, BENCH_ACCEPTED);
    expect("the letter", memory[INPUT_KINDS_AT], BENCH_KIND_REAL);
    size_t link = memory[INPUT_LINKS_AT] + 256u * memory[INPUT_LINKS_AT + 1], token = STRETCHES_AT + STRETCH * link + 1;
    expect("the token", (uint32_t)memcmp(memory + token, one, sizeof one), 0);
    for (size_t i = 0; i < FINITE; i++) {
        stored("a stored token", token, BENCH_REAL, finite[i], 1);
    }
    for (size_t i = 0; i < NOT_FINITE; i++) {
        stored("a stored token that is not finite", token, BENCH_REAL, not_finite[i], 0);
    }
    size_t constant = 0;
    while (memory[RECORDS_AT + RECORD_BYTES * constant] != CONSTANT) {
        constant++;
    }
    size_t at = REGISTERS_AT + BENCH_VALUE_BYTES * constant;
    /* A constant is a number of row kind 2, a truth, or a float of row kind 10, of which 999.999 is the greatest. */
    static const uint32_t good[][2] = {{BENCH_WHOLE, 0}, {BENCH_WHOLE, 999999}, {BENCH_TRUTH, 0}, {BENCH_TRUTH, 1}, {BENCH_REAL, 0}, {BENCH_REAL, 1},
                                       {BENCH_REAL, 1148846064}};
    static const uint32_t bad[][2] = {{BENCH_WHOLE, 1000000}, {BENCH_WHOLE, 0xffffffff}, {BENCH_ERR, 0},         {BENCH_ERR, 1},
                                      {BENCH_REAL, 1148846065}, {BENCH_REAL, MINUS_ZERO},   {BENCH_REAL, MINUS(ONE)}, {BENCH_REAL, GREATEST_FLOAT},
                                      {BENCH_REAL, 0x7f800000}, {BENCH_REAL + 1, 0}};
    for (size_t i = 0; i < sizeof good / sizeof good[0]; i++) {
        stored("a stored constant", at, (uint8_t)good[i][0], good[i][1], 1);
    }
    for (size_t i = 0; i < sizeof bad / sizeof bad[0]; i++) {
        stored("no constant", at, (uint8_t)bad[i][0], bad[i][1], 0);
    }
}

int main(void) {
    constants();
    operators();
    beside_own();
    kinds();
    sets();
    altered();
    free(memory);
    return tell();
}
