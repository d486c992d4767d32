/* Sheets that are refused, each for one reason, for the C programs that hand them in; long ones are made row by row. */
#ifndef REFUSED_H
#define REFUSED_H

#include "check.h"

enum { ROW_BYTES = 31, MOST_ROWS = 200 };

/* Each with a kinds line that is at fault too: it is looked at behind these. */
static const struct {
    const char *what, *rows;
    uint32_t refusal, row;
} refused_sheets[] = {
    {"an empty sheet", "", BENCH_LINES, 0},
    {"a row without its line feed", "     1     0     0     0     0", BENCH_LINES, 0},
    {"a row too long", "     1     0     0     0      0\n", BENCH_LINES, 0},
    {"a leading zero", "     1    00     0     0     0\n", BENCH_FIELD, 1},
    {"code 12", "     1     0     0     0     0\n     5    12     1     0     0\n", BENCH_RANGE, 2},
    {"a row that names itself", "     5    11     1     0     0\n", BENCH_NAMING, 1},
    {"a row that nothing names", "     1     0     0     0     0\n     1     1     0     0     0\n", BENCH_NAMED, 1},
    {"iter as the formula", "     1     0     0     0     0\n     9     1     0     0     0\n", BENCH_ITER, 2},
    {"add with one operand", "     1     0     0     0     0\n     5     1     1     0     0\n", BENCH_WIDTH, 2},
    {"let x = 1 in 2", "     2     1     0     0     0\n     2     2     0     0     0\n     6     0     1     1     2\n", BENCH_BOUND, 3},
};

/* A row at its place in a sheet. */
static inline void put_row(char *sheet, unsigned row, unsigned kind, unsigned a, unsigned b, unsigned c) {
    char text[ROW_BYTES + 1];
    snprintf(text, sizeof text, "%6u%6u%6u%6u     0\n", kind % 100000, a % 100000, b % 100000, c % 100000);
    memcpy(sheet + (size_t)ROW_BYTES * (row - 1), text, ROW_BYTES);
}

enum { IDENTIFIER = 1, PAIR = 4, OPERATOR = 5, IF = 7, ADD = 1, NEGATE = 11 };

/* A row more than a sheet may have: negations of x0, of which the first 200 rows are a sheet. Gives its bytes. */
static inline size_t too_many_rows(char sheet[(MOST_ROWS + 1) * ROW_BYTES]) {
    put_row(sheet, 1, IDENTIFIER, 0, 0, 0);
    for (unsigned row = 2; row <= MOST_ROWS + 1; row++) {
        put_row(sheet, row, OPERATOR, NEGATE, row - 1, 0);
    }
    return (MOST_ROWS + 1) * ROW_BYTES;
}

/* x0 + x1 + .. + x18 within ifs within ifs on x19: each if has a gate for each name that is free in its arms. Gives its bytes. */
static inline size_t too_many_operators(char sheet[MOST_ROWS * ROW_BYTES]) {
    enum { SUMMED = 19, TEST = 19 };
    unsigned row = 1;
    put_row(sheet, row, IDENTIFIER, 0, 0, 0);
    for (unsigned name = 1; name < SUMMED; name++, row += 3) {
        put_row(sheet, row + 1, IDENTIFIER, name, 0, 0);
        put_row(sheet, row + 2, PAIR, row, row + 1, 0);
        put_row(sheet, row + 3, OPERATOR, ADD, row + 2, 0);
    }
    for (; row + 3 <= MOST_ROWS; row += 3) {
        put_row(sheet, row + 1, IDENTIFIER, TEST, 0, 0);
        put_row(sheet, row + 2, IDENTIFIER, 0, 0, 0);
        put_row(sheet, row + 3, IF, row + 1, row, row + 2);
    }
    return (size_t)row * ROW_BYTES;
}

/* The kinds line of that sheet. */
static const char too_many_operators_kinds[] = "WWWWWWWWWWWWWWWWWWWT\n";

#endif
