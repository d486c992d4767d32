/*
 * Kinds through the C interface: kinds lines and rows at fault, sets of another kind, the letters that a machine stores, and every byte that a refused call is
 * lent.
 */
#include "machine.h"

enum { HELD = 0x5a, MOST_INPUTS = 32 };

/* Bytes lent at their exact length, and as they were. */
struct lent {
    const char *from;
    uint8_t *bytes;
    size_t length;
};

static struct lent lend_text(const char *text) {
    struct lent l = {text, lend(text, strlen(text)), strlen(text)};
    return l;
}

static void give_back(const char *what, struct lent l) {
    expect(what, l.length == 0 || memcmp(l.bytes, l.from, l.length) == 0, 1);
    free(l.bytes);
}

static void expect_held(const char *what, const uint8_t *bytes, size_t count) {
    size_t held = 0;
    while (held < count && bytes[held] == HELD) {
        held++;
    }
    expect(what, held == count, 1);
}

/* 11 and 14 come before whatever is wrong with a sheet and its line. */
static void first_of_all(const char *what, struct lent rows, struct lent line, uint8_t *mem, size_t size) {
    uint8_t out[BENCH_RESULT_BYTES - 1];
    memset(out, HELD, sizeof out);
    bench_evaluate_answer short_out =
        bench_evaluate(rows.bytes, rows.length, line.bytes, line.length, (const uint8_t *)"x", 1, 0, out, sizeof out);
    expect(what, short_out.refusal, BENCH_MEMORY);
    expect(what, short_out.row, 0);
    bench_start_answer short_memory = bench_start(rows.bytes, rows.length, line.bytes, line.length, 1, mem, size - 1, &tally);
    expect(what, short_memory.refusal, BENCH_MEMORY);
    expect(what, short_memory.row, 0);
    bench_start_answer no_capacity = bench_start(rows.bytes, rows.length, line.bytes, line.length, 0, mem, size, &tally);
    expect(what, no_capacity.refusal, BENCH_CAPACITY);
    expect(what, no_capacity.row, 0);
    expect_held(what, out, sizeof out);
    expect_held(what, mem, size);
}

/* What reading, evaluation and start answer; a refused one leaves all that is lent, whatever else is wrong behind it. */
static void told(const char *what, const char *sheet, const char *kinds, uint32_t refusal, uint32_t row) {
    struct lent rows = lend_text(sheet), line = lend_text(kinds);
    size_t size = BENCH_MACHINE_BYTES(1);
    uint8_t out[BENCH_RESULT_BYTES], *mem = malloc(size);
    if (mem == NULL) {
        exit(2);
    }
    memset(out, HELD, sizeof out);
    memset(mem, HELD, size);
    bench_read_answer read = bench_read(rows.bytes, rows.length, line.bytes, line.length);
    expect(what, read.refusal, refusal);
    expect(what, read.row, row);
    expect(what, (read.rows | read.operators | read.inputs | read.results) == 0, refusal != BENCH_ACCEPTED);
    bench_evaluate_answer evaluated =
        bench_evaluate(rows.bytes, rows.length, line.bytes, line.length, (const uint8_t *)"x", 1, 0, out, sizeof out);
    expect(what, evaluated.refusal, refusal == BENCH_ACCEPTED ? BENCH_SET : refusal);
    expect(what, evaluated.row, row);
    expect_held(what, out, sizeof out);
    first_of_all(what, rows, line, mem, size);
    bench_start_answer started = bench_start(rows.bytes, rows.length, line.bytes, line.length, 1, mem, size, &tally);
    expect(what, started.refusal, refusal);
    expect(what, started.row, row);
    if (refusal != BENCH_ACCEPTED) {
        expect(what, (started.operators | started.inputs | started.results) == 0, 1);
        expect_held(what, mem, size);
    }
    give_back(what, rows);
    give_back(what, line);
    free(mem);
}

/* "x0 = x1": a club compared a truth with a voltage. */
static const char comparison[] =
    "     1     0     0     0     0\n"
    "     1     1     0     0     0\n"
    "     4     1     2     0     0\n"
    "     5     7     3     0     0\n";

static const char seven[] = "     2     7     0     0     0\n";

/* "let x = 1 in 2", which gets 9. */
static const char unused[] =
    "     2     1     0     0     0\n"
    "     2     2     0     0     0\n"
    "     6     0     1     1     2\n";

/* 17: another length, another letter; for a formula of two inputs and for one without. */
static void lines(void) {
    static const char *const bad[] = {"",      "\n",     "W\n",     "WW",       "WWW",   "WWW\n",  "WW\n\n", "WW\nW", "WW\r\n", "WW \n", "\nWW", "W\nW",
                                      "ww\n", "WF\n",   "EW\n",    "W \n",     "01\n",  "XX\n",   "WW\r",  "W\xd7\n", "TW",     "TX\n"};
    static const char *const bad_of_none[] = {"", " ", "W", "W\n", "\n\n", "\r\n", "\r"};
    for (size_t i = 0; i < sizeof bad / sizeof bad[0]; i++) {
        told("a kinds line", comparison, bad[i], BENCH_KINDS_LINE, 0);
        told("9 before 17", unused, bad[i], BENCH_BOUND, 3);
    }
    for (size_t i = 0; i < sizeof bad_of_none / sizeof bad_of_none[0]; i++) {
        told("a kinds line of no inputs", seven, bad_of_none[i], BENCH_KINDS_LINE, 0);
    }
    char many[1000];
    memset(many, BENCH_KIND_WHOLE, sizeof many);
    many[sizeof many - 2] = '\n';
    many[sizeof many - 1] = 0;
    told("a kinds line of 998 letters", comparison, many, BENCH_KINDS_LINE, 0);
    told("the kinds line of no inputs", seven, "\n", BENCH_ACCEPTED, 0);
    told("two numbers", comparison, "WW\n", BENCH_ACCEPTED, 0);
    told("9 before 18", unused, "T\n", BENCH_BOUND, 3);
}

/* 18 with the lowest row. */
static const struct {
    const char *what, *rows, *kinds;
    uint32_t row;
} broken[] = {
    {"a truth compared with a number", comparison, "TW\n", 4},
    {"a number compared with a truth", comparison, "WT\n", 4},
    {"two truths compared", comparison, "TT\n", 4},
    {"a test of kind W",
     "     1     0     0     0     0\n     2     1     0     0     0\n     2     2     0     0     0\n     7     1     2     3     0\n", "W\n", 4},
    {"arms of two kinds",
     "     1     0     0     0     0\n     2     1     0     0     0\n     3     1     0     0     0\n     7     1     2     3     0\n", "T\n", 4},
    /* for x0 = x0 do if x0 < 3 then iter true else x0 */
    {"a loop that turns a number into a truth",
     "     1     0     0     0     0\n     1     0     0     0     0\n     2     3     0     0     0\n     4     2     3     0     0\n"
     "     5     6     4     0     0\n     3     1     0     0     0\n     9     6     0     0     0\n     1     0     0     0     0\n"
     "     7     5     7     8     0\n     8     0     1     1     9\n",
     "W\n", 10},
    /* for x0 = x0 do if x1 then iter x0 else x0 */
    {"a loop's test of kind W",
     "     1     0     0     0     0\n     1     1     0     0     0\n     1     0     0     0     0\n     9     3     0     0     0\n"
     "     1     0     0     0     0\n     7     2     4     5     0\n     8     0     1     1     6\n",
     "WW\n", 6},
    /* for x0 = x0 do if x1 then (if x1 then iter 1 else iter true) else x0 */
    {"iters of two kinds",
     "     1     0     0     0     0\n     1     1     0     0     0\n     1     1     0     0     0\n     2     1     0     0     0\n"
     "     9     4     0     0     0\n     3     1     0     0     0\n     9     6     0     0     0\n     7     3     5     7     0\n"
     "     1     0     0     0     0\n     7     2     8     9     0\n     8     0     1     1    10\n",
     "WT\n", 8},
    /* let x1 = (for x1 = 1 do if x0 then (if x0 then 1 else true) else iter x1) in (not or minus) x1: the first of the returning arms holds */
    {"returned values of two kinds",
     "     1     1     0     0     0\n     5    11     1     0     0\n     2     1     0     0     0\n     1     0     0     0     0\n"
     "     1     0     0     0     0\n     2     1     0     0     0\n     3     1     0     0     0\n     7     5     6     7     0\n"
     "     1     1     0     0     0\n     9     9     0     0     0\n     7     4     8    10     0\n     8     1     1     3    11\n"
     "     6     1     1    12     2\n",
     "T\n", 8},
    {"returned values of two kinds, and not of them",
     "     1     1     0     0     0\n     5    10     1     0     0\n     2     1     0     0     0\n     1     0     0     0     0\n"
     "     1     0     0     0     0\n     2     1     0     0     0\n     3     1     0     0     0\n     7     5     6     7     0\n"
     "     1     1     0     0     0\n     9     9     0     0     0\n     7     4     8    10     0\n     8     1     1     3    11\n"
     "     6     1     1    12     2\n",
     "T\n", 2},
    /* let x1 = (if x0 then true else 1) in -x1: the first arm's kinds hold, so that the negation is at fault too, in a lower row */
    {"a row below the one that causes it",
     "     1     1     0     0     0\n     5    11     1     0     0\n     1     0     0     0     0\n     3     1     0     0     0\n"
     "     2     1     0     0     0\n     7     3     4     5     0\n     6     1     1     6     2\n",
     "T\n", 2},
};

static void rows(void) {
    for (size_t i = 0; i < sizeof broken / sizeof broken[0]; i++) {
        told(broken[i].what, broken[i].rows, broken[i].kinds, BENCH_KINDS, broken[i].row);
    }
    told("17 before 18", comparison, "TWW\n", BENCH_KINDS_LINE, 0);
}

/* Two values each, for the sheet `pair` of a number and a truth: those of their kinds or errs go in. */
static const struct {
    const char *what;
    uint8_t set[2][BENCH_VALUE_BYTES];
    uint32_t refusal;
} sets[] = {
    {"a number and a truth", {WHOLE(5), TRUE_VALUE}, BENCH_ACCEPTED},
    {"a number and E", {WHOLE(5), E_VALUE}, BENCH_ACCEPTED},
    {"Z and a truth", {Z_VALUE, FALSE_VALUE}, BENCH_ACCEPTED},
    {"V and Z", {V_VALUE, Z_VALUE}, BENCH_ACCEPTED},
    {"two numbers", {WHOLE(5), WHOLE(1)}, BENCH_SET},
    {"two truths", {TRUE_VALUE, TRUE_VALUE}, BENCH_SET},
    {"a truth and a number", {FALSE_VALUE, WHOLE(0)}, BENCH_SET},
    {"a truth and an err", {TRUE_VALUE, V_VALUE}, BENCH_SET},
    {"an err and a number", {E_VALUE, WHOLE(1)}, BENCH_SET},
};

/* 12 by kind in evaluation, push and a tray; a refused set changes nothing. */
static void sets_of_kinds(void) {
    for (size_t i = 0; i < sizeof sets / sizeof sets[0]; i++) {
        const char *what = sets[i].what;
        const uint8_t *set = sets[i].set[0], *sheet = (const uint8_t *)pair.rows, *kinds = (const uint8_t *)pair.kinds;
        uint8_t out[BENCH_RESULT_BYTES];
        memset(out, HELD, sizeof out);
        bench_evaluate_answer answer =
            bench_evaluate(sheet, strlen(pair.rows), kinds, strlen(pair.kinds), set, sizeof sets[i].set, 0, out, sizeof out);
        expect(what, answer.refusal, sets[i].refusal);
        expect(what, answer.width, sets[i].refusal == BENCH_ACCEPTED ? 2 : 0);
        if (sets[i].refusal != BENCH_ACCEPTED) {
            expect_held(what, out, sizeof out);
        }
        begin(&pair, 2);
        uint8_t *before = lend(memory, length), two[2 * sizeof sets[i].set];
        expect(what, bench_push(memory, length, set, sizeof sets[i].set, &tally).refusal, sets[i].refusal);
        expect(what, (memcmp(memory, before, length) == 0) == (sets[i].refusal != BENCH_ACCEPTED), 1);
        free(before);
        begin(&pair, 2);
        memcpy(two, sets[0].set, sizeof sets[0].set);
        memcpy(two + sizeof sets[0].set, set, sizeof sets[i].set);
        bench_answer tray = bench_push_tray(memory, length, two, sizeof two, 2, &tally);
        expect(what, tray.refusal, sets[i].refusal);
        expect(what, tray.count, sets[i].refusal == BENCH_ACCEPTED ? 2 : 1);
    }
    /* 12 before 32 and 33 */
    begin(&pair, 1);
    expect("a set", bench_push(memory, length, sets[0].set[0], sizeof sets[0].set, &tally).refusal, BENCH_ACCEPTED);
    expect("12 before 33", bench_push(memory, length, sets[4].set[0], sizeof sets[4].set, &tally).refusal, BENCH_SET);
    memory[UNTAKEN_AT] = MOST_UNTAKEN;
    expect("12 before 32", bench_push(memory, length, sets[4].set[0], sizeof sets[4].set, &tally).refusal, BENCH_SET);
}

/* The letters that a start stores: each must be one, and those behind the inputs may be anything. */
static void stored_letters(void) {
    begin(&pair, 1);
    expect("the first letter", memory[INPUT_KINDS_AT], BENCH_KIND_WHOLE);
    expect("the second letter", memory[INPUT_KINDS_AT + 1], BENCH_KIND_TRUTH);
    for (unsigned byte = 0; byte <= UINT8_MAX; byte++) {
        for (size_t input = 0; input < 2; input++) {
            if (byte == BENCH_KIND_WHOLE || byte == BENCH_KIND_TRUTH || byte == BENCH_KIND_REAL) {
                good_byte("another letter", INPUT_KINDS_AT + input, (uint8_t)byte);
            } else {
                bad_byte("no letter", INPUT_KINDS_AT + input, (uint8_t)byte);
            }
        }
    }
    memset(memory + INPUT_KINDS_AT + 2, 0, MOST_INPUTS - 2);
    stands("letters behind the inputs");
    /* Another letter there: sets are held to it. */
    memory[INPUT_KINDS_AT + 1] = BENCH_KIND_WHOLE;
    expect("a number and a truth", bench_push(memory, length, sets[0].set[0], sizeof sets[0].set, &tally).refusal, BENCH_SET);
    expect("two numbers", bench_push(memory, length, sets[4].set[0], sizeof sets[4].set, &tally).refusal, BENCH_ACCEPTED);
    begin(&factorial, 2);
    bad_byte("no letter of one input", INPUT_KINDS_AT, 0);
    good_byte("a byte behind the letter of one input", INPUT_KINDS_AT + 1, 0);
    begin(&pair, 1);
    memory[INPUT_KINDS_AT] = 0;
    length--;
    all_refuse("11 before 31", BENCH_MEMORY);
}

int main(void) {
    lines();
    rows();
    sets_of_kinds();
    stored_letters();
    free(memory);
    return tell();
}
