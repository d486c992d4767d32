/*
 * Reading and evaluation through the C interface: the worked examples of document 01, every refusal with its row, and every byte of what is
 * lent for the result set. Sheets, sets and result sets are allocated at their exact length, so that a tool which watches memory sees an access past
 * their ends.
 */
#include "refused.h"

enum { HELD = 0x5a };

/* "x + x" */
static const struct sheet doubled = {
    "     1     0     0     0     0\n"
    "     1     0     0     0     0\n"
    "     4     1     2     0     0\n"
    "     5     1     3     0     0\n",
    "W\n"};

/* The number 7: no input. */
static const struct sheet seven = {"     2     7     0     0     0\n", "\n"};

/* A value as the calls take and give it. */
typedef struct {
    uint8_t bytes[BENCH_VALUE_BYTES];
} value;

static value of(uint8_t tag, uint32_t bits) {
    value v = {{tag, (uint8_t)bits, (uint8_t)(bits >> 8), (uint8_t)(bits >> 16), (uint8_t)(bits >> 24)}};
    return v;
}

static value whole(uint32_t number) {
    return of(BENCH_WHOLE, number);
}

static value truth(uint32_t bit) {
    return of(BENCH_TRUTH, bit);
}

static value err(void) {
    return of(BENCH_ERR, BENCH_ERR_OTHER);
}

/* Bytes to lend. */
typedef struct {
    const void *bytes;
    size_t length;
} stretch;

static stretch of_text(const char *text) {
    stretch s = {text, strlen(text)};
    return s;
}

static stretch of_bytes(const void *bytes, size_t length) {
    stretch s = {bytes, length};
    return s;
}

static bench_read_answer read_bytes(stretch rows, stretch kinds) {
    uint8_t *sheet = lend(rows.bytes, rows.length), *line = lend(kinds.bytes, kinds.length);
    bench_read_answer answer = bench_read(sheet, rows.length, line, kinds.length);
    free(sheet);
    free(line);
    return answer;
}

/* What an evaluation answered and left in the bytes lent for its result set. */
typedef struct {
    bench_evaluate_answer answer;
    uint8_t out[2 * BENCH_RESULT_BYTES];
} evaluated;

static evaluated evaluate_bytes(stretch rows, stretch kinds, stretch set_bytes, uint32_t rounds, size_t out_length) {
    evaluated got;
    memset(got.out, HELD, sizeof got.out);
    uint8_t *sheet = lend(rows.bytes, rows.length), *line = lend(kinds.bytes, kinds.length);
    uint8_t *set = lend(set_bytes.bytes, set_bytes.length), *out = lend(got.out, out_length);
    got.answer = bench_evaluate(sheet, rows.length, line, kinds.length, set, set_bytes.length, rounds, out, out_length);
    if (out_length > 0) {
        memcpy(got.out, out, out_length);
    }
    free(sheet);
    free(line);
    free(set);
    free(out);
    return got;
}

static evaluated evaluate_set(const struct sheet *sheet, const void *set, size_t bytes, uint32_t rounds) {
    return evaluate_bytes(of_text(sheet->rows), of_text(sheet->kinds), of_bytes(set, bytes), rounds, BENCH_RESULT_BYTES);
}

static evaluated evaluate(const struct sheet *sheet, const value *set, size_t values, uint32_t rounds) {
    return evaluate_set(sheet, set, values * sizeof *set, rounds);
}

/* Whether all bytes from one on are as they were lent. */
static int untouched(const uint8_t *out, size_t from) {
    for (size_t i = from; i < 2 * BENCH_RESULT_BYTES; i++) {
        if (out[i] != HELD) {
            return 0;
        }
    }
    return 1;
}

static void expect_refused(const char *what, evaluated got, uint32_t refusal, uint32_t row) {
    expect(what, got.answer.refusal, refusal);
    expect(what, got.answer.row, row);
    expect(what, got.answer.width, 0);
    expect(what, got.answer.rounds, 0);
    expect(what, untouched(got.out, 0) != 0, 1);
}

/* One result, and err in the fifteen places behind it. */
static void expect_one(const char *what, evaluated got, value wanted, uint32_t rounds) {
    value nothing = err();
    expect(what, got.answer.refusal, BENCH_ACCEPTED);
    expect(what, got.answer.row, 0);
    expect(what, got.answer.width, 1);
    expect(what, got.answer.rounds, rounds);
    expect(what, (uint32_t)memcmp(got.out, &wanted, sizeof wanted), 0);
    for (size_t at = BENCH_VALUE_BYTES; at < BENCH_RESULT_BYTES; at += BENCH_VALUE_BYTES) {
        expect(what, (uint32_t)memcmp(got.out + at, &nothing, sizeof nothing), 0);
    }
    expect(what, untouched(got.out, BENCH_RESULT_BYTES) != 0, 1);
}

static void expect_read(const char *what, const struct sheet *sheet, uint32_t rows, uint32_t operators, uint32_t inputs, uint32_t results) {
    bench_read_answer answer = read_bytes(of_text(sheet->rows), of_text(sheet->kinds));
    expect(what, answer.refusal, BENCH_ACCEPTED);
    expect(what, answer.row, 0);
    expect(what, answer.rows, rows);
    expect(what, answer.operators, operators);
    expect(what, answer.inputs, inputs);
    expect(what, answer.results, results);
}

static void expect_unread(const char *what, stretch rows, stretch kinds, uint32_t refusal, uint32_t row) {
    bench_read_answer answer = read_bytes(rows, kinds);
    expect(what, answer.refusal, refusal);
    expect(what, answer.row, row);
    expect(what, answer.rows, 0);
    expect(what, answer.operators, 0);
    expect(what, answer.inputs, 0);
    expect(what, answer.results, 0);
    /* The set is bad too: what is wrong with the sheet comes first. */
    expect_refused(what, evaluate_bytes(rows, kinds, of_text("x"), 0, BENCH_RESULT_BYTES), refusal, row);
    expect_refused(what, evaluate_bytes(rows, kinds, of_text("x"), 0, BENCH_RESULT_BYTES - 1), BENCH_MEMORY, 0);
}

static void worked_examples(void) {
    value sets[][2] = {{whole(3), whole(5)}, {whole(7), whole(7)}, {err(), whole(2)}}, fourth[] = {truth(1), whole(1)};
    value results[] = {whole(3), whole(7), err()};
    expect_read("the lesser of two", &lesser_of_two, 7, 8, 2, 1);
    for (size_t i = 0; i < sizeof results / sizeof results[0]; i++) {
        expect_one("the lesser of two", evaluate(&lesser_of_two, sets[i], 2, 0), results[i], 0);
    }
    expect_refused("the lesser of a truth and a number", evaluate(&lesser_of_two, fourth, 2, 0), BENCH_SET, 0);
    expect_read("x + x", &doubled, 4, 2, 1, 1);
    value n[] = {whole(5), whole(0), whole(12), whole(13), err(), of(BENCH_ERR, BENCH_ERR_ZERO_DIVISOR)};
    expect_read("factorial", &factorial, 20, 32, 1, 1);
    expect_one("factorial of 5", evaluate(&factorial, &n[0], 1, 5), whole(120), 5);
    expect_one("more rounds than needed", evaluate(&factorial, &n[0], 1, UINT32_MAX), whole(120), 5);
    expect_refused("a round too few", evaluate(&factorial, &n[0], 1, 4), BENCH_UNFINISHED, 0);
    expect_refused("no rounds", evaluate(&factorial, &n[0], 1, 0), BENCH_UNFINISHED, 0);
    expect_one("factorial of 0", evaluate(&factorial, &n[1], 1, 1), whole(1), 1);
    expect_one("factorial of 12", evaluate(&factorial, &n[2], 1, 12), whole(479001600), 12);
    expect_one("factorial of 13", evaluate(&factorial, &n[3], 1, 13), of(BENCH_ERR, BENCH_ERR_OUT_OF_RANGE), 13);
    expect_one("factorial of E", evaluate(&factorial, &n[4], 1, 1), err(), 1);
    expect_one("factorial of Z", evaluate(&factorial, &n[5], 1, 1), err(), 1);
}

static void errs_with_reasons(void) {
    for (size_t i = 0; i < sizeof reasons / sizeof reasons[0]; i++) {
        const char *what = reasons[i].what;
        evaluated got = evaluate_set(reasons[i].sheet, reasons[i].set, sizeof reasons[i].set, 0);
        expect(what, got.answer.refusal, BENCH_ACCEPTED);
        expect(what, got.answer.width, 2);
        expect(what, (uint32_t)memcmp(got.out, reasons[i].result, sizeof reasons[i].result), 0);
    }
}

static void long_sheets(void) {
    char sheet[(MOST_ROWS + 1) * ROW_BYTES];
    size_t bytes = too_many_rows(sheet);
    expect("200 rows", read_bytes(of_bytes(sheet, bytes - ROW_BYTES), of_text("W\n")).operators, MOST_ROWS - 1);
    expect_unread("201 rows", of_bytes(sheet, bytes), of_text("W\n"), BENCH_ROWS, 0);
    stretch rows = of_bytes(sheet, too_many_operators(sheet));
    expect_unread("too many operators", rows, of_text(too_many_operators_kinds), BENCH_OPERATORS, 0);
    /* x17 is added in row 52, x18 in row 55; the first test is in row 58. */
    expect_unread("18 before 10", rows, of_text("WWWWWWWWWWWWWWWWWTTT\n"), BENCH_KINDS, 52);
    expect_unread("18 at the first test", rows, of_text("WWWWWWWWWWWWWWWWWWWW\n"), BENCH_KINDS, 58);
    expect_unread("17 before 18 before 10", rows, of_text("WWWWWWWWWWWWWWWWWTT\n"), BENCH_KINDS_LINE, 0);
}

static void sets(void) {
    value two[] = {whole(5), truth(1)}, result[] = {whole(5), truth(1), err()};
    value bad[] = {of(0, 0), of(BENCH_REAL + 1, 0), of(BENCH_REAL, 0x7f800000), of(BENCH_TRUTH, 2), of(BENCH_TRUTH, 256)};
    expect_refused("a value too few", evaluate(&pair, two, 1, 0), BENCH_SET, 0);
    expect_refused("a byte too few", evaluate_set(&pair, two, sizeof two - 1, 0), BENCH_SET, 0);
    expect_refused("a value too many", evaluate(&factorial, two, 2, 9), BENCH_SET, 0);
    for (size_t i = 0; i < sizeof bad / sizeof bad[0]; i++) {
        expect_refused("no value, and 12 before 36", evaluate(&factorial, &bad[i], 1, 0), BENCH_SET, 0);
    }
    for (size_t i = 0; i < sizeof no_reasons / sizeof no_reasons[0]; i++) {
        expect_refused("an err of no reason", evaluate_set(&factorial, no_reasons[i], BENCH_VALUE_BYTES, 9), BENCH_SET, 0);
    }
    evaluated both = evaluate_bytes(of_text(pair.rows), of_text(pair.kinds), of_bytes(two, sizeof two), 0, sizeof both.out);
    expect("two results", both.answer.refusal, BENCH_ACCEPTED);
    expect("two results", both.answer.width, 2);
    expect("two results", (uint32_t)memcmp(both.out, result, sizeof result), 0);
    expect("bytes past the result set", untouched(both.out, BENCH_RESULT_BYTES) != 0, 1);
}

static void nothing_lent(void) {
    uint8_t out[BENCH_RESULT_BYTES];
    const uint8_t *rows = (const uint8_t *)seven.rows, *kinds = (const uint8_t *)seven.kinds;
    size_t length = strlen(seven.rows);
    bench_evaluate_answer answer = bench_evaluate(rows, length, kinds, 1, NULL, 0, 0, out, sizeof out);
    value wanted = whole(7);
    expect("no sheet", bench_read(NULL, 0, NULL, 0).refusal, BENCH_LINES);
    expect("no sheet to evaluate", bench_evaluate(NULL, 0, NULL, 0, NULL, 0, 0, out, sizeof out).refusal, BENCH_LINES);
    expect("no kinds line", bench_read(rows, length, NULL, 0).refusal, BENCH_KINDS_LINE);
    expect("no kinds line to evaluate", bench_evaluate(rows, length, NULL, 0, NULL, 0, 0, out, sizeof out).refusal, BENCH_KINDS_LINE);
    expect("no set for no inputs", answer.refusal, BENCH_ACCEPTED);
    expect("no set for no inputs", (uint32_t)memcmp(out, &wanted, sizeof wanted), 0);
    expect("no set for two inputs", evaluate(&pair, NULL, 0, 0).answer.refusal, BENCH_SET);
    expect("no room", bench_evaluate(rows, length, kinds, 1, NULL, 0, 0, NULL, 0).refusal, BENCH_MEMORY);
}

int main(void) {
    worked_examples();
    for (size_t i = 0; i < sizeof refused_sheets / sizeof refused_sheets[0]; i++) {
        stretch rows = of_text(refused_sheets[i].rows);
        expect_unread(refused_sheets[i].what, rows, of_text("no line"), refused_sheets[i].refusal, refused_sheets[i].row);
    }
    errs_with_reasons();
    long_sheets();
    sets();
    nothing_lent();
    return tell();
}
