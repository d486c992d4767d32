/*
 * How far results can move, through the C interface: numbers reckoned by hand, each refusal, and every byte of the lent memory, at lengths about its need. All
 * that is lent is allocated at its exact length, so that a tool which watches memory sees an access past its ends.
 */
#include <stddef.h>

#include "held.h"
#include "refused.h"

_Static_assert(sizeof(bench_drift_answer) == 12 && offsetof(bench_drift_answer, row) == 4 && offsetof(bench_drift_answer, results) == 8, "layout");
_Static_assert(BENCH_NUMBER_BYTES == 4 && BENCH_DRIFT_BYTES == 64, "need");

enum { MOST_INPUTS = 32, MOST_RESULTS = BENCH_DRIFT_BYTES / BENCH_NUMBER_BYTES };

/* The greatest tolerance, and the greatest number of a row. */
#define MOST UINT32_C(2147483647)

static void put_number(uint8_t *place, uint32_t number) {
    for (int i = 0; i < BENCH_NUMBER_BYTES; i++) {
        place[i] = (uint8_t)(number >> 8 * i);
    }
}

/* What is handed in. */
struct handed {
    const char *rows, *kinds;
    size_t rows_bytes, kinds_bytes;
    uint8_t tolerances[4 * (MOST_INPUTS + 2)];
    size_t tolerances_bytes;
};

static struct handed hand(const char *rows, const char *kinds, const uint32_t *tolerances, size_t count) {
    struct handed in = {rows, kinds, strlen(rows), strlen(kinds), {0}, BENCH_NUMBER_BYTES * count};
    for (size_t i = 0; i < count; i++) {
        put_number(in.tolerances + BENCH_NUMBER_BYTES * i, tolerances[i]);
    }
    return in;
}

/* One call with so much memory lent. What is lent for reading stays, and of the memory all past the answer's numbers; the start of it is handed out. */
static bench_drift_answer call(const char *what, const struct handed *in, size_t room, uint8_t start[BENCH_DRIFT_BYTES]) {
    uint8_t *rows = lend(in->rows, in->rows_bytes), *kinds = lend(in->kinds, in->kinds_bytes);
    uint8_t *tolerances = lend(in->tolerances, in->tolerances_bytes), *out = hold(room);
    bench_drift_answer answer = bench_drift(rows, in->rows_bytes, kinds, in->kinds_bytes, tolerances, in->tolerances_bytes, out, room);
    size_t written = BENCH_NUMBER_BYTES * (size_t)answer.results;
    expect(what, written <= room && (room == 0 || all_held(out + written, out + room)), 1);
    expect(what, in->rows_bytes == 0 || memcmp(rows, in->rows, in->rows_bytes) == 0, 1);
    expect(what, in->kinds_bytes == 0 || memcmp(kinds, in->kinds, in->kinds_bytes) == 0, 1);
    expect(what, in->tolerances_bytes == 0 || memcmp(tolerances, in->tolerances, in->tolerances_bytes) == 0, 1);
    if (room >= BENCH_DRIFT_BYTES) {
        memcpy(start, out, BENCH_DRIFT_BYTES);
    }
    free(rows);
    free(kinds);
    free(tolerances);
    free(out);
    return answer;
}

static void refused(const char *what, const struct handed *in, size_t room, uint32_t refusal, uint32_t row) {
    uint8_t start[BENCH_DRIFT_BYTES];
    bench_drift_answer answer = call(what, in, room, start);
    expect(what, answer.refusal, refusal);
    expect(what, answer.row, row);
    expect(what, answer.results, 0);
}

/* The call gives these numbers, at lengths of the memory about the need. */
static void told(const char *what, const struct handed *in, const uint32_t *numbers, uint32_t results) {
    static const size_t more[] = {0, 1, 100};
    for (size_t i = 0; i < sizeof more / sizeof more[0]; i++) {
        uint8_t start[BENCH_DRIFT_BYTES], wanted[BENCH_DRIFT_BYTES];
        bench_drift_answer answer = call(what, in, BENCH_DRIFT_BYTES + more[i], start);
        expect(what, answer.refusal, BENCH_ACCEPTED);
        expect(what, answer.row, 0);
        expect(what, answer.results, results);
        for (size_t place = 0; place < results; place++) {
            put_number(wanted + BENCH_NUMBER_BYTES * place, numbers[place]);
        }
        expect(what, memcmp(start, wanted, BENCH_NUMBER_BYTES * (size_t)results) == 0, 1);
    }
    refused(what, in, BENCH_DRIFT_BYTES - 1, BENCH_MEMORY, 0);
    refused(what, in, BENCH_NUMBER_BYTES * (size_t)results - 1, BENCH_MEMORY, 0);
    refused(what, in, 0, BENCH_MEMORY, 0);
}

/* The same of a sheet with one input, or with two whose tolerances are given, and one result. */
static void told_one(const char *what, const char *rows, const char *kinds, uint32_t first, uint32_t second, uint32_t number) {
    struct handed in = hand(rows, kinds, (const uint32_t[]){first, second}, strlen(kinds) - 1);
    told(what, &in, &number, 1);
}

static void refused_one(const char *what, const char *rows, const char *kinds, uint32_t first, uint32_t second, uint32_t refusal, uint32_t row) {
    struct handed in = hand(rows, kinds, (const uint32_t[]){first, second}, strlen(kinds) - 1);
    refused(what, &in, BENCH_DRIFT_BYTES, refusal, row);
}

/* "let m = (x0 + x1) / 2 in m * 3 - x2, m", with m as x3: the mean of two readings, and what is left of three times it. Row 1 uses what row 16 binds. */
static const struct sheet club = {
    "     1     3     0     0     0\n"
    "     2     3     0     0     0\n"
    "     4     1     2     0     0\n"
    "     5     3     3     0     0\n"
    "     1     2     0     0     0\n"
    "     4     4     5     0     0\n"
    "     5     2     6     0     0\n"
    "     1     3     0     0     0\n"
    "     4     7     8     0     0\n"
    "     1     0     0     0     0\n"
    "     1     1     0     0     0\n"
    "     4    10    11     0     0\n"
    "     5     1    12     0     0\n"
    "     2     2     0     0     0\n"
    "     4    13    14     0     0\n"
    "     5     4    15     0     0\n"
    "     6     3     1    16     9\n",
    "WWW\n"};

static void evaluated(const uint8_t set[3][BENCH_VALUE_BYTES], uint8_t result[BENCH_RESULT_BYTES]) {
    bench_evaluate_answer answer = bench_evaluate((const uint8_t *)club.rows, strlen(club.rows), (const uint8_t *)club.kinds, strlen(club.kinds),
                                                  set[0], 3 * BENCH_VALUE_BYTES, 0, result, BENCH_RESULT_BYTES);
    expect("the club's formula", answer.refusal, BENCH_ACCEPTED);
    expect("the club's formula", answer.width, 2);
}

/*
 * Tolerances 5, 4 and 7: the mean moves 9 over 2, rounded up, 5; the rest three times that and 7, 22. Readings 10, 11, 0 have the mean 10 and 30 left; 15, 15, -7,
 * each as far away as it may be, have 15 and 52: both results move just as far as their numbers.
 */
static void worked_example(void) {
    static const uint8_t sets[2][3][BENCH_VALUE_BYTES] = {{WHOLE(10), WHOLE(11), WHOLE(0)},
                                                          {WHOLE(15), WHOLE(15), {BENCH_WHOLE, 0xf9, 0xff, 0xff, 0xff}}};
    static const uint8_t wanted[2][2][BENCH_VALUE_BYTES] = {{WHOLE(30), WHOLE(10)}, {WHOLE(52), WHOLE(15)}};
    struct handed in = hand(club.rows, club.kinds, (const uint32_t[]){5, 4, 7}, 3);
    told("the club's formula", &in, (const uint32_t[]){22, 5}, 2);
    for (int i = 0; i < 2; i++) {
        uint8_t result[BENCH_RESULT_BYTES];
        evaluated(sets[i], result);
        expect("the club's readings", memcmp(result, wanted[i], sizeof wanted[i]) == 0, 1);
    }
    in = hand(club.rows, club.kinds, (const uint32_t[]){0, 0, 0}, 3);
    told("no tolerances", &in, (const uint32_t[]){0, 0}, 2);
}

#define X "     1     0     0     0     0\n"
#define Y "     1     1     0     0     0\n"
#define NUMBER(a) "     2" a "     0     0     0\n"
#define FIRST_TWO "     4     1     2     0     0\n"
#define SWAPPED "     4     2     1     0     0\n"
#define ON_THREE(code) "     5" code "     3     0     0\n"

/* Each sort by itself. */
static void each_sort(void) {
    told_one("an identifier", X, "W\n", 7, 0, 7);
    told_one("a whole number", NUMBER("999999"), "\n", 0, 0, 0);
    told_one("negate", X "     5    11     1     0     0\n", "W\n", 7, 0, 7);
    told_one("add", X Y FIRST_TWO ON_THREE("     1"), "WW\n", 7, 8, 15);
    told_one("subtract", X Y FIRST_TWO ON_THREE("     2"), "WW\n", 7, 8, 15);
    told_one("a name twice", X X FIRST_TWO ON_THREE("     2"), "W\n", 7, 0, 14);
    told_one("a constant behind", X NUMBER("     6") FIRST_TWO ON_THREE("     3"), "W\n", 7, 0, 42);
    told_one("a constant in front", X NUMBER("     6") SWAPPED ON_THREE("     3"), "W\n", 7, 0, 42);
    told_one("by 0", X NUMBER("     0") SWAPPED ON_THREE("     3"), "W\n", MOST, 0, 0);
    told_one("two constants", NUMBER("     5") NUMBER("     6") FIRST_TWO ON_THREE("     3"), "\n", 0, 0, 0);
    told_one("divided by 1", X NUMBER("     1") FIRST_TWO ON_THREE("     4"), "W\n", MOST, 0, MOST);
    told_one("divided evenly", X NUMBER("     4") FIRST_TWO ON_THREE("     4"), "W\n", 8, 0, 2);
    told_one("rounded up", X NUMBER("     4") FIRST_TWO ON_THREE("     4"), "W\n", 9, 0, 3);
    told_one("0 over 4", X NUMBER("     4") FIRST_TWO ON_THREE("     4"), "W\n", 0, 0, 0);
    told_one("by more than it moves", X NUMBER("999999") FIRST_TWO ON_THREE("     4"), "W\n", 1, 0, 1);
    told_one("a let", X X "     6     0     1     2     1\n", "W\n", 7, 0, 7);
    /* let x0, x1 = x1, x0 in x0 - 2 * x1 */
    told_one("a let of two", X NUMBER("     2") Y "     4     2     3     0     0\n     5     3     4     0     0\n     4     1     5     0     0\n"
             "     5     2     6     0     0\n" Y X "     4     8     9     0     0\n     6     0     2    10     7\n", "WW\n", 7, 100, 114);
    /* add on "let x0 = x1 in x0, x0" */
    told_one("a sum of a let", X X FIRST_TWO Y "     6     0     1     4     3\n     5     1     5     0     0\n", "W\n", 7, 0, 14);
    /* x0 and x31, the higher one first */
    struct handed in = hand("     1    31     0     0     0\n" X FIRST_TWO, "WW\n", (const uint32_t[]){3, 0x01020304}, 2);
    told("a pair", &in, (const uint32_t[]){0x01020304, 3}, 2);
}

/* 20 with its row, whatever the tolerances are. */
static void other_sort(const char *what, const char *rows, const char *kinds, uint32_t row) {
    struct handed in = hand(rows, kinds, (const uint32_t[]){1, UINT32_MAX}, strlen(kinds) - 1);
    refused(what, &in, BENCH_DRIFT_BYTES, BENCH_SORT, row);
    refused(what, &in, BENCH_DRIFT_BYTES - 1, BENCH_MEMORY, 0);
    in.tolerances_bytes++;
    refused(what, &in, BENCH_DRIFT_BYTES, BENCH_SORT, row);
}

static void other_sorts(void) {
    static const struct {
        const char *what, *rows, *kinds;
        uint32_t row;
    } cases[] = {
        {"a truth", "     3     1     0     0     0\n", "\n", 1},
        {"a number with a fraction", "    10  1500     0     0     0\n", "\n", 1},
        {"an input of kind T", X "     5    11     1     0     0\n     1     1     0     0     0\n     4     2     3     0     0\n", "WT\n", 3},
        {"an input of kind R", X "     5    11     1     0     0\n", "R\n", 1},
        {"remainder", X NUMBER("     6") FIRST_TWO ON_THREE("     5"), "W\n", 4},
        {"less", X NUMBER("     6") FIRST_TWO ON_THREE("     6"), "W\n", 4},
        {"equal", X NUMBER("     6") FIRST_TWO ON_THREE("     7"), "W\n", 4},
        {"and", X Y FIRST_TWO ON_THREE("     8"), "TT\n", 1},
        {"or", X Y FIRST_TWO ON_THREE("     9"), "TT\n", 1},
        {"not", X "     5    10     1     0     0\n", "T\n", 1},
        {"a product of names", X Y FIRST_TWO ON_THREE("     3"), "WW\n", 4},
        {"a product with a negated constant",
         NUMBER("     6") "     5    11     1     0     0\n" X "     4     2     3     0     0\n     5     3     4     0     0\n", "W\n", 5},
        {"a divisor that is a name", X Y FIRST_TWO ON_THREE("     4"), "WW\n", 4},
        {"a divisor that is 0", X NUMBER("     0") FIRST_TWO ON_THREE("     4"), "W\n", 4},
        {"a constant in front of a divisor", X NUMBER("     6") SWAPPED ON_THREE("     4"), "W\n", 4},
        {"a pair behind a let", X NUMBER("     6") FIRST_TWO X "     6     0     1     4     3\n     5     3     5     0     0\n", "W\n", 6},
        {"a quotient of a let", X NUMBER("     6") FIRST_TWO X "     6     0     1     4     3\n     5     4     5     0     0\n", "W\n", 6},
        {"a constant behind a let", X Y FIRST_TWO ON_THREE("     3") NUMBER("     6") "     6     1     1     5     4\n", "W\n", 4},
        {"a name bound to a truth", X "     3     1     0     0     0\n     6     0     1     2     1\n", "\n", 1},
        {"an if", Y Y "     3     1     0     0     0\n     7     3     1     2     0\n", "W\n", 3},
        {"an if on an input", Y Y X "     7     3     1     2     0\n", "TW\n", 3},
        {"an if's row behind its test's",
         X X NUMBER("     5") "     4     2     3     0     0\n     5     6     4     0     0\n" X "     7     5     1     6     0\n", "W\n", 5},
    };
    for (size_t i = 0; i < sizeof cases / sizeof cases[0]; i++) {
        other_sort(cases[i].what, cases[i].rows, cases[i].kinds, cases[i].row);
    }
    other_sort("the lesser of two", lesser_of_two.rows, lesser_of_two.kinds, 4);
    other_sort("factorial", factorial.rows, factorial.kinds, 7);
}

/* About 2,147,483,647: in a tolerance, a sum, a product, and in rows whose number a later row makes smaller. */
static void range(void) {
    static const char sum[] = X Y FIRST_TWO ON_THREE("     1"), doubled[] = X NUMBER("     2") FIRST_TWO ON_THREE("     3");
    static const char halved[] = X NUMBER("     2") FIRST_TWO ON_THREE("     3") NUMBER("     2") "     4     4     5     0     0\n     5     4     6     0     0\n";
    static const char nothing[] = X NUMBER("     2") FIRST_TWO ON_THREE("     3") NUMBER("     0") "     4     4     5     0     0\n     5     3     6     0     0\n";
    /* let x1 = x0 * 2 in x1 / 4 */
    static const char bound[] = Y NUMBER("     4") FIRST_TWO ON_THREE("     4") X NUMBER("     2") "     4     5     6     0     0\n     5     3     7     0     0\n"
                                "     6     1     1     8     4\n";
    told_one("the greatest", X, "W\n", MOST, 0, MOST);
    refused_one("one more", X, "W\n", MOST + 1, 0, BENCH_MOVEMENT, 0);
    refused_one("the greatest of 32 bits", X, "W\n", UINT32_MAX, 0, BENCH_MOVEMENT, 0);
    told_one("the greatest and 0", sum, "WW\n", MOST, 0, MOST);
    refused_one("the greatest and 1", sum, "WW\n", MOST, 1, BENCH_MOVEMENT, 0);
    refused_one("1 and the greatest", sum, "WW\n", 1, MOST, BENCH_MOVEMENT, 0);
    refused_one("0 and one more", sum, "WW\n", 0, MOST + 1, BENCH_MOVEMENT, 0);
    refused_one("the greatest and the greatest", sum, "WW\n", MOST, MOST, BENCH_MOVEMENT, 0);
    told_one("twice the half", doubled, "W\n", MOST / 2, 0, MOST - 1);
    refused_one("twice one more", doubled, "W\n", MOST / 2 + 1, 0, BENCH_MOVEMENT, 0);
    told_one("times 999,999", X NUMBER("999999") FIRST_TWO ON_THREE("     3"), "W\n", 2147, 0, UINT32_C(2146997853));
    refused_one("times 999,999", X NUMBER("999999") FIRST_TWO ON_THREE("     3"), "W\n", 2148, 0, BENCH_MOVEMENT, 0);
    refused_one("the greatest times 999,999", X NUMBER("999999") FIRST_TWO ON_THREE("     3"), "W\n", MOST, 0, BENCH_MOVEMENT, 0);
    told_one("halved again", halved, "W\n", MOST / 2, 0, MOST / 2);
    refused_one("halved too late", halved, "W\n", MOST / 2 + 1, 0, BENCH_MOVEMENT, 0);
    told_one("nothing is left", nothing, "W\n", MOST / 2, 0, 0);
    refused_one("nothing is left too late", nothing, "W\n", MOST / 2 + 1, 0, BENCH_MOVEMENT, 0);
    told_one("a let's row c", bound, "W\n", MOST / 2, 0, MOST / 4 + 1);
    refused_one("a let's row c", bound, "W\n", MOST / 2 + 1, 0, BENCH_MOVEMENT, 0);
}

/* Every length of the tolerances but one is 21. */
static void lengths(void) {
    static const struct {
        const char *rows, *kinds;
    } sheets[] = {{NUMBER("     5"), "\n"}, {X, "W\n"}, {X Y FIRST_TWO ON_THREE("     1"), "WW\n"}};
    static const uint32_t ones[MOST_INPUTS] = {1, 1, 1, 1};
    for (size_t i = 0; i < sizeof sheets / sizeof sheets[0]; i++) {
        size_t inputs = strlen(sheets[i].kinds) - 1;
        for (size_t length = 0; length <= BENCH_NUMBER_BYTES * (inputs + 2); length++) {
            struct handed in = hand(sheets[i].rows, sheets[i].kinds, ones, inputs + 2);
            in.tolerances_bytes = length;
            if (length == BENCH_NUMBER_BYTES * inputs) {
                told("as many as the inputs", &in, (const uint32_t[]){(uint32_t)inputs}, 1);
            } else {
                refused("not as many as the inputs", &in, BENCH_DRIFT_BYTES, BENCH_MOVEMENT, 0);
            }
        }
    }
    struct handed in = hand(club.rows, club.kinds, (const uint32_t[]){5, 4, MOST + 1}, 3);
    refused("the last out of range", &in, BENCH_DRIFT_BYTES, BENCH_MOVEMENT, 0);
}

/* 11 before all, 1 to 9, 17, 18 and 10 before 20, 20 before 21. */
static void order(void) {
    char sheet[(MOST_ROWS + 1) * ROW_BYTES];
    struct handed in;
    for (size_t i = 0; i < sizeof refused_sheets / sizeof refused_sheets[0]; i++) {
        in = hand(refused_sheets[i].rows, "?", (const uint32_t[]){UINT32_MAX}, 1);
        refused(refused_sheets[i].what, &in, BENCH_DRIFT_BYTES, refused_sheets[i].refusal, refused_sheets[i].row);
        refused(refused_sheets[i].what, &in, BENCH_DRIFT_BYTES - 1, BENCH_MEMORY, 0);
    }
    in = hand(lesser_of_two.rows, "WWW\n", NULL, 0);
    refused("17 before 20", &in, BENCH_DRIFT_BYTES, BENCH_KINDS_LINE, 0);
    in = hand(lesser_of_two.rows, "TW\n", NULL, 0);
    refused("18 before 20", &in, BENCH_DRIFT_BYTES, BENCH_KINDS, 4);
    /* an operator of two kinds behind a truth in row 1 */
    in = hand("     3     1     0     0     0\n" X "     4     2     1     0     0\n     5     1     3     0     0\n", "W\n", NULL, 0);
    refused("18 before 20 of a lower row", &in, BENCH_DRIFT_BYTES, BENCH_KINDS, 4);
    in = hand("", too_many_operators_kinds, NULL, 0);
    in.rows = sheet;
    in.rows_bytes = too_many_operators(sheet);
    refused("10 before 20", &in, BENCH_DRIFT_BYTES, BENCH_OPERATORS, 0);
    in.kinds_bytes--;
    refused("17 before 10", &in, BENCH_DRIFT_BYTES, BENCH_KINDS_LINE, 0);
    in = hand(X X FIRST_TWO ON_THREE("     3"), "W\n", (const uint32_t[]){UINT32_MAX}, 1);
    refused("20 before 21", &in, BENCH_DRIFT_BYTES, BENCH_SORT, 4);
    in = hand("", "W\n", (const uint32_t[]){MOST}, 1);
    in.rows = sheet;
    in.rows_bytes = too_many_rows(sheet);
    refused("201 rows", &in, BENCH_DRIFT_BYTES, BENCH_ROWS, 0);
    in.rows_bytes -= ROW_BYTES;
    told("200 rows", &in, (const uint32_t[]){MOST}, 1);
}

/* Sixteen results fill the memory. */
static void many_results(void) {
    char sheet[MOST_ROWS * ROW_BYTES];
    char kinds[MOST_RESULTS + 2];
    uint32_t tolerances[MOST_RESULTS];
    unsigned row = 1;
    put_row(sheet, row, IDENTIFIER, 0, 0, 0);
    for (unsigned name = 1; name < MOST_RESULTS; name++, row += 2) {
        put_row(sheet, row + 1, IDENTIFIER, name, 0, 0);
        put_row(sheet, row + 2, PAIR, row, row + 1, 0);
    }
    for (uint32_t i = 0; i < MOST_RESULTS; i++) {
        kinds[i] = 'W';
        tolerances[i] = MOST - 0x01020304 * i;
    }
    memcpy(kinds + MOST_RESULTS, "\n", 2);
    struct handed in = hand("", kinds, tolerances, MOST_RESULTS);
    in.rows = sheet;
    in.rows_bytes = (size_t)row * ROW_BYTES;
    told("sixteen results", &in, tolerances, MOST_RESULTS);
}

static void nothing_lent(void) {
    uint8_t out[BENCH_DRIFT_BYTES];
    memset(out, HELD, sizeof out);
    expect("nothing", bench_drift(NULL, 0, NULL, 0, NULL, 0, NULL, 0).refusal, BENCH_MEMORY);
    expect("no sheet", bench_drift(NULL, 0, NULL, 0, NULL, 0, out, sizeof out).refusal, BENCH_LINES);
    expect("no kinds line", bench_drift((const uint8_t *)X, ROW_BYTES, NULL, 0, NULL, 0, out, sizeof out).refusal, BENCH_KINDS_LINE);
    expect("no tolerances", bench_drift((const uint8_t *)X, ROW_BYTES, (const uint8_t *)"W\n", 2, NULL, 0, out, sizeof out).refusal, BENCH_MOVEMENT);
    expect("all left", all_held(out, out + sizeof out), 1);
    bench_drift_answer answer = bench_drift((const uint8_t *)NUMBER("     5"), ROW_BYTES, (const uint8_t *)"\n", 1, NULL, 0, out, sizeof out);
    expect("no inputs", answer.refusal, BENCH_ACCEPTED);
    expect("no inputs", answer.results, 1);
    expect("no inputs", all_held(out + BENCH_NUMBER_BYTES, out + sizeof out), 1);
}

int main(void) {
    worked_example();
    each_sort();
    other_sorts();
    range();
    lengths();
    order();
    many_results();
    nothing_lent();
    return tell();
}
