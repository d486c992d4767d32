/*
 * Tidied sheets through the C interface: their text before and after, each refusal, and every byte of the lent memory, at lengths about its need; beside each
 * the same sheet tidied again. Sheets and memory are allocated at their exact length, so that a tool which watches memory sees an access past their ends.
 */
#include <stddef.h>

#include "held.h"
#include "refused.h"

_Static_assert(sizeof(bench_tidy_answer) == 12 && offsetof(bench_tidy_answer, row) == 4 && offsetof(bench_tidy_answer, rows) == 8, "layout");
_Static_assert(BENCH_TIDY_BYTES(0) == 0 && BENCH_TIDY_BYTES(6199) == 6199 && BENCH_TIDY_BYTES(6200) == 6200 && BENCH_TIDY_BYTES(6231) == 6200,
               "need");

enum { LONGEST = MOST_ROWS * ROW_BYTES };

/* The sheet is refused with so much memory lent, and nothing is written. */
static void refused(const char *what, const char *sheet, size_t bytes, size_t room, uint32_t refusal, uint32_t row) {
    uint8_t *lent = lend(sheet, bytes), *out = hold(room);
    bench_tidy_answer answer = bench_tidy(lent, bytes, out, room);
    expect(what, answer.refusal, refusal);
    expect(what, answer.row, row);
    expect(what, answer.rows, 0);
    expect(what, room == 0 || all_held(out, out + room), 1);
    expect(what, bytes == 0 || memcmp(lent, sheet, bytes) == 0, 1);
    free(lent);
    free(out);
}

/* The sheet is accepted with so much memory lent, where `left` then stands at the start; tidying that again leaves every byte. */
static void accepted(const char *what, const char *sheet, size_t bytes, size_t room, const char *left, size_t left_bytes) {
    uint8_t *lent = lend(sheet, bytes), *out = hold(room);
    bench_tidy_answer answer = bench_tidy(lent, bytes, out, room);
    expect(what, answer.refusal, BENCH_ACCEPTED);
    expect(what, answer.row, 0);
    expect(what, answer.rows, (uint32_t)(left_bytes / ROW_BYTES));
    expect(what, memcmp(out, left, left_bytes) == 0, 1);
    expect(what, all_held(out + left_bytes, out + room), 1);
    expect(what, memcmp(lent, sheet, bytes) == 0, 1);
    uint8_t *tidied = lend(out, left_bytes);
    bench_tidy_answer again = bench_tidy(tidied, left_bytes, out, room);
    expect(what, again.refusal, BENCH_ACCEPTED);
    expect(what, again.row, 0);
    expect(what, again.rows, answer.rows);
    expect(what, memcmp(out, left, left_bytes) == 0, 1);
    expect(what, all_held(out + left_bytes, out + room), 1);
    free(lent);
    free(out);
    free(tidied);
}

/* Both, at lengths of the memory about the need: it is the sheet's length, however little of the sheet is left. */
static void tidied(const char *what, const char *sheet, size_t bytes, const char *left, size_t left_bytes) {
    static const size_t more[] = {0, 1, 100};
    for (size_t i = 0; i < sizeof more / sizeof more[0]; i++) {
        accepted(what, sheet, bytes, bytes + more[i], left, left_bytes);
    }
    refused(what, sheet, bytes, bytes - 1, BENCH_MEMORY, 0);
    refused(what, sheet, bytes, left_bytes - 1, BENCH_MEMORY, 0);
    refused(what, sheet, bytes, 0, BENCH_MEMORY, 0);
}

static void tidied_text(const char *what, const char *sheet, const char *left) {
    tidied(what, sheet, strlen(sheet), left, strlen(left));
}

/* "if x0 < x1 then x0 else x1" with rows of three older parts: 2 and 5, 7, 10 to 12. Row 3 is named twice, by the live row 4 and the dead row 7. */
static const char littered[] =
    "     1     0     0     0     0\n"
    "     2     5     0     0     0\n"
    "     1     1     0     0     0\n"
    "     4     1     3     0     0\n"
    "     5    11     2     0     0\n"
    "     5     6     4     0     0\n"
    "     4     6     3     0     0\n"
    "     1     0     0     0     0\n"
    "     1     1     0     0     0\n"
    "    10   500     0     0     0\n"
    "     1     7     0     0     0\n"
    "     4    10    11     0     0\n"
    "     7     6     8     9     0\n";

/* As it is the sheet is refused; the tidied one is the lesser of two, through reading and evaluation. */
static void worked_example(void) {
    static const uint8_t set[][BENCH_VALUE_BYTES] = {WHOLE(3), WHOLE(5)};
    static const uint8_t kinds[] = {'W', 'W', '\n'};
    uint8_t out[sizeof littered - 1], result[BENCH_RESULT_BYTES];
    const uint8_t *sheet = (const uint8_t *)littered;
    size_t bytes = sizeof littered - 1;
    tidied_text("the lesser of two", littered, lesser_of_two.rows);
    bench_read_answer read = bench_read(sheet, bytes, kinds, sizeof kinds);
    expect("read as it is handed in", read.refusal, BENCH_NAMED);
    expect("read as it is handed in", read.row, 3);
    expect("evaluated as it is handed in", bench_evaluate(sheet, bytes, kinds, sizeof kinds, set[0], sizeof set, 0, result, sizeof result).refusal, BENCH_NAMED);
    bench_tidy_answer answer = bench_tidy(sheet, bytes, out, sizeof out);
    expect("the lesser of two", answer.rows, 7);
    read = bench_read(out, BENCH_ROW_BYTES * (size_t)answer.rows, kinds, sizeof kinds);
    expect("read tidied", read.refusal, BENCH_ACCEPTED);
    expect("read tidied", read.rows, 7);
    expect("read tidied", read.operators, 8);
    bench_evaluate_answer evaluated =
        bench_evaluate(out, BENCH_ROW_BYTES * (size_t)answer.rows, kinds, sizeof kinds, set[0], sizeof set, 0, result, sizeof result);
    expect("evaluated tidied", evaluated.refusal, BENCH_ACCEPTED);
    expect("evaluated tidied", memcmp(result, set[0], BENCH_VALUE_BYTES) == 0, 1);
}

/* Behind two dead rows: each kind with the fields that name rows, and numbers in the others that stay. */
static const struct {
    const char *what, *sheet, *left;
} kinds_of_rows[] = {
    {"an identifier", "     3     1     0     0     0\n     3     1     0     0     0\n     1     2     0     0     0\n", "     1     2     0     0     0\n"},
    {"a whole number", "     3     1     0     0     0\n     3     1     0     0     0\n     2     2     0     0     0\n", "     2     2     0     0     0\n"},
    {"a number with a fraction", "     3     1     0     0     0\n     3     1     0     0     0\n    10999999     0     0     0\n",
     "    10999999     0     0     0\n"},
    {"a truth", "     2     7     0     0     0\n     2     7     0     0     0\n     3     1     0     0     0\n", "     3     1     0     0     0\n"},
    {"a pair and an operator",
     "     3     1     0     0     0\n"
     "     3     1     0     0     0\n"
     "     1     0     0     0     0\n"
     "     1     1     0     0     0\n"
     "     4     4     3     0     0\n"
     "     5     5     5     0     0\n",
     "     1     0     0     0     0\n"
     "     1     1     0     0     0\n"
     "     4     2     1     0     0\n"
     "     5     5     3     0     0\n"},
    {"a let",
     "     3     1     0     0     0\n"
     "     3     1     0     0     0\n"
     "     1     3     0     0     0\n"
     "     2     3     0     0     0\n"
     "     6     3     1     4     3\n",
     "     1     3     0     0     0\n"
     "     2     3     0     0     0\n"
     "     6     3     1     2     1\n"},
    {"an if",
     "     3     1     0     0     0\n"
     "     3     1     0     0     0\n"
     "     1     0     0     0     0\n"
     "     1     1     0     0     0\n"
     "     3     0     0     0     0\n"
     "     7     5     3     4     0\n",
     "     1     0     0     0     0\n"
     "     1     1     0     0     0\n"
     "     3     0     0     0     0\n"
     "     7     3     1     2     0\n"},
    {"a for and an iter",
     "     3     1     0     0     0\n"
     "     1     5     0     0     0\n"
     "     3     1     0     0     0\n"
     "     1     5     0     0     0\n"
     "     1     5     0     0     0\n"
     "     9     5     0     0     0\n"
     "     1     5     0     0     0\n"
     "     7     4     6     7     0\n"
     "     8     5     1     2     8\n",
     "     1     5     0     0     0\n"
     "     1     5     0     0     0\n"
     "     1     5     0     0     0\n"
     "     9     3     0     0     0\n"
     "     1     5     0     0     0\n"
     "     7     2     4     5     0\n"
     "     8     5     1     1     6\n"},
    {"an iter as the formula", "     3     1     0     0     0\n     1     0     0     0     0\n     9     2     0     0     0\n",
     "     1     0     0     0     0\n     9     1     0     0     0\n"},
    {"a chain of dead rows",
     "     1     0     0     0     0\n"
     "     5    11     1     0     0\n"
     "     5    11     2     0     0\n"
     "     5    11     1     0     0\n",
     "     1     0     0     0     0\n"
     "     5    11     1     0     0\n"},
};

static uint32_t read_refusal(const char *sheet) {
    return bench_read((const uint8_t *)sheet, strlen(sheet), NULL, 0).refusal;
}

/* 6 of the new sheet: by two fields of kept rows, in one row or in two; not by fields of dead ones. No kinds line is lent, which is looked at behind 6. */
static void named_twice(void) {
    static const char pair[] = "     3     1     0     0     0\n     1     0     0     0     0\n     4     2     2     0     0\n";
    static const char pair_left[] = "     1     0     0     0     0\n     4     1     1     0     0\n";
    static const char shared[] =
        "     1     0     0     0     0\n     5    11     1     0     0\n     5    11     1     0     0\n     4     2     3     0     0\n";
    static const char once[] =
        "     1     0     0     0     0\n     5    11     1     0     0\n     4     1     1     0     0\n     5    11     2     0     0\n";
    static const char once_left[] = "     1     0     0     0     0\n     5    11     1     0     0\n     5    11     2     0     0\n";
    tidied_text("one row named twice", pair, pair_left);
    expect("one row named twice", read_refusal(pair_left), BENCH_NAMED);
    tidied_text("named by two rows", shared, shared);
    expect("named by two rows", read_refusal(shared), BENCH_NAMED);
    tidied_text("named by dead rows too", once, once_left);
    expect("named by dead rows too", read_refusal(once), BENCH_NAMED);
    expect("named by dead rows too", read_refusal(once_left), BENCH_KINDS_LINE);
}

/* Sheets without dead rows come back as they are, also those that reading refuses with 7 to 10. */
static void nothing_dead(void) {
    char sheet[LONGEST];
    size_t bytes = too_many_operators(sheet);
    tidied_text("the lesser of two", lesser_of_two.rows, lesser_of_two.rows);
    tidied_text("factorial", factorial.rows, factorial.rows);
    tidied_text("one row", "     2999999     0     0     0\n", "     2999999     0     0     0\n");
    tidied("too many operators", sheet, bytes, sheet, bytes);
    for (size_t i = 0; i < sizeof refused_sheets / sizeof refused_sheets[0]; i++) {
        if (refused_sheets[i].refusal > BENCH_NAMED) {
            tidied_text(refused_sheets[i].what, refused_sheets[i].rows, refused_sheets[i].rows);
        }
    }
}

/* Each of 1 to 5, for live rows and dead ones; 11 before them. */
static void refusals(void) {
    static const struct {
        const char *what, *rows;
        uint32_t refusal, row;
    } dead[] = {
        {"a dead row without its line feed", "     1     0     0     0     0      1     0     0     0     0\n", BENCH_LINES, 0},
        {"a leading zero in a dead row", "     1     0     0     0     0\n    01     0     0     0     0\n     1     0     0     0     0\n", BENCH_FIELD, 2},
        {"kind 11 in a dead row", "     1     0     0     0     0\n    11     0     0     0     0\n     1     0     0     0     0\n", BENCH_RANGE, 2},
        {"a dead row that names the last", "     1     0     0     0     0\n     9     3     0     0     0\n     1     0     0     0     0\n", BENCH_NAMING, 2},
        {"a last row that names row 0", "     1     0     0     0     0\n     4     1     0     0     0\n", BENCH_NAMING, 2},
        {"4 in row 2 before 5 in row 1", "     9     1     0     0     0\n     3     2     0     0     0\n     1     0     0     0     0\n", BENCH_RANGE, 2},
    };
    for (size_t i = 0; i < sizeof dead / sizeof dead[0]; i++) {
        size_t bytes = strlen(dead[i].rows);
        refused(dead[i].what, dead[i].rows, bytes, bytes, dead[i].refusal, dead[i].row);
        refused(dead[i].what, dead[i].rows, bytes, bytes - 1, BENCH_MEMORY, 0);
    }
    for (size_t i = 0; i < sizeof refused_sheets / sizeof refused_sheets[0]; i++) {
        size_t bytes = strlen(refused_sheets[i].rows);
        if (refused_sheets[i].refusal <= BENCH_NAMING) {
            refused(refused_sheets[i].what, refused_sheets[i].rows, bytes, bytes + 9, refused_sheets[i].refusal, refused_sheets[i].row);
        }
    }
}

/* 200 rows, all live, all dead but the last, every other dead; and a row more, which needs no more. */
static void long_sheets(void) {
    char sheet[LONGEST + ROW_BYTES], wanted[LONGEST], last[ROW_BYTES];
    size_t bytes = too_many_rows(sheet);
    tidied("200 rows", sheet, LONGEST, sheet, LONGEST);
    refused("201 rows", sheet, bytes, LONGEST, BENCH_ROWS, 0);
    refused("201 rows", sheet, bytes, bytes, BENCH_ROWS, 0);
    refused("201 rows and a byte too few", sheet, bytes, LONGEST - 1, BENCH_MEMORY, 0);
    refused("201 rows, the last without its line feed", sheet, bytes - 1, LONGEST, BENCH_LINES, 0);
    memcpy(wanted, sheet, 101 * ROW_BYTES);
    for (unsigned row = 2; row < MOST_ROWS; row++) {
        put_row(sheet, row, OPERATOR, NEGATE, row % 2 == 0 ? row - 1 : row - 2, 0);
    }
    tidied("every other dead", sheet, LONGEST, wanted, 101 * ROW_BYTES);
    put_row(sheet, MOST_ROWS, IDENTIFIER, 31, 0, 0);
    put_row(last, 1, IDENTIFIER, 31, 0, 0);
    tidied("all dead but the last", sheet, LONGEST, last, ROW_BYTES);
    put_row(sheet, 100, IDENTIFIER, 0, 0, 0);
    put_row(sheet, MOST_ROWS, PAIR, 199, 100, 0);
    put_row(sheet, 199, OPERATOR, NEGATE, 100, 0);
    put_row(wanted, 3, PAIR, 2, 1, 0);
    tidied("numbers of fewer digits", sheet, LONGEST, wanted, 3 * ROW_BYTES);
}

static void nothing_lent(void) {
    uint8_t out[ROW_BYTES];
    memset(out, HELD, sizeof out);
    expect("nothing", bench_tidy(NULL, 0, NULL, 0).refusal, BENCH_LINES);
    expect("no sheet", bench_tidy(NULL, 0, out, sizeof out).refusal, BENCH_LINES);
    expect("no sheet", all_held(out, out + sizeof out), 1);
    expect("no memory", bench_tidy((const uint8_t *)littered, sizeof littered - 1, NULL, 0).refusal, BENCH_MEMORY);
    expect("no memory for a byte", bench_tidy((const uint8_t *)littered, 1, NULL, 0).refusal, BENCH_MEMORY);
}

int main(void) {
    worked_example();
    for (size_t i = 0; i < sizeof kinds_of_rows / sizeof kinds_of_rows[0]; i++) {
        tidied_text(kinds_of_rows[i].what, kinds_of_rows[i].sheet, kinds_of_rows[i].left);
    }
    named_twice();
    nothing_dead();
    refusals();
    long_sheets();
    nothing_lent();
    return tell();
}
