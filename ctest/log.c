/*
 * Logs through the C interface: each refusal in its order and with its line, every byte of what is lent; and beside each log that is followed the calls that its
 * lines name, by bench_push, bench_fire and bench_take on a machine of their own, with the same machine, the same results and the same refused line.
 */
#include <stddef.h>

#include "machine.h"
#include "refused.h"

_Static_assert(sizeof(bench_log_answer) == 16 && offsetof(bench_log_answer, row) == 4 && offsetof(bench_log_answer, count) == 8 &&
                   offsetof(bench_log_answer, width) == 12,
               "layout");

enum { LINE = BENCH_LOG_LINE_BYTES, MOST_LINES = BENCH_LOG_MOST_LINES, HELD = 0xa5, BEHIND = 7, PUSH = 1, FIRE = 2, TAKE = 3 };

/* The log at hand, with room for lines too many. */
static char text[(MOST_LINES + 100) * LINE];
static size_t log_bytes;

static void clear_log(void) {
    log_bytes = 0;
}

static void put_text(const char *bytes) {
    memcpy(text + log_bytes, bytes, strlen(bytes));
    log_bytes += strlen(bytes);
}

static void put_line(uint32_t kind, uint32_t number) {
    char line[32];
    snprintf(line, sizeof line, "%6" PRIu32 "%6" PRIu32 "\n", kind, number);
    put_text(line);
}

/* Lines at their places in a log of pairs, kind and number. */
static void put_lines(const uint32_t (*lines)[2], size_t number) {
    for (size_t i = 0; i < number; i++) {
        put_line(lines[i][0], lines[i][1]);
    }
}

/* All that a check is lent beside the log; of memory and room as many bytes as are needed, and so many more or fewer. */
struct lent {
    const char *rows, *kinds;
    size_t rows_bytes, kinds_bytes;
    uint32_t capacity, number;
    const uint8_t *sets;
    size_t sets_bytes;
    int more_memory, more_room;
    uint8_t fill;
};

/* What a check left in the memory and the room, and their lengths. */
static uint8_t *left, *results;
static size_t left_bytes, results_bytes;

static size_t with_more(size_t bytes, int more) {
    return more < 0 ? bytes - (size_t)-more : bytes + (size_t)more;
}

static uint8_t *filled(size_t bytes, uint8_t fill) {
    uint8_t *lent = malloc(bytes);
    if (lent == NULL && bytes > 0) {
        exit(2);
    }
    if (bytes > 0) {
        memset(lent, fill, bytes);
    }
    return lent;
}

/* Whether all bytes from one place on hold what they held. */
static int holds(const uint8_t *bytes, size_t from, size_t to, uint8_t fill) {
    while (from < to && bytes[from] == fill) {
        from++;
    }
    return from >= to;
}

/* One call, with every stretch at its exact length; the bytes handed in stay as they are. */
static bench_log_answer check(const char *what, const struct lent *lent) {
    free(left);
    free(results);
    left_bytes = with_more(BENCH_MACHINE_BYTES(lent->capacity >= 1 && lent->capacity <= MOST_CAPACITY ? lent->capacity : 1), lent->more_memory);
    results_bytes = with_more(BENCH_LOG_RESULTS_BYTES(log_bytes), lent->more_room);
    left = filled(left_bytes, lent->fill);
    results = filled(results_bytes, lent->fill);
    uint8_t *rows = lend(lent->rows, lent->rows_bytes), *kinds = lend(lent->kinds, lent->kinds_bytes), *sets = lend(lent->sets, lent->sets_bytes),
            *lines = lend(text, log_bytes);
    bench_log_answer answer = bench_check_log(rows, lent->rows_bytes, kinds, lent->kinds_bytes, lent->capacity, sets, lent->sets_bytes, lent->number, lines,
                                              log_bytes, left, left_bytes, results, results_bytes);
    expect(what, lent->rows_bytes == 0 || memcmp(rows, lent->rows, lent->rows_bytes) == 0, 1);
    expect(what, lent->kinds_bytes == 0 || memcmp(kinds, lent->kinds, lent->kinds_bytes) == 0, 1);
    expect(what, lent->sets_bytes == 0 || memcmp(sets, lent->sets, lent->sets_bytes) == 0, 1);
    expect(what, log_bytes == 0 || memcmp(lines, text, log_bytes) == 0, 1);
    free(rows);
    free(kinds);
    free(sets);
    free(lines);
    return answer;
}

/* This refusal with this row, nothing written. */
static void refused(const char *what, const struct lent *lent, uint32_t refusal, uint32_t row) {
    bench_log_answer answer = check(what, lent);
    expect(what, answer.refusal, refusal);
    expect(what, answer.row, row);
    expect(what, answer.count, 0);
    expect(what, answer.width, 0);
    expect(what, holds(left, 0, left_bytes, lent->fill) && holds(results, 0, results_bytes, lent->fill), 1);
}

/* A line's own call on the machine in `memory`. */
static bench_answer call(const struct lent *lent, const char *line, uint8_t *out) {
    uint32_t number = (uint32_t)strtoul(line + 6, NULL, 10);
    size_t set = BENCH_VALUE_BYTES * (size_t)memory[INPUTS_AT];
    switch (line[5] - '0') {
    case PUSH:
        return bench_push(memory, length, set == 0 ? NULL : lent->sets + set * (number - 1), set, &tally);
    case FIRE:
        return bench_fire(memory, length, number, &tally);
    default:
        return bench_take(memory, length, out, BENCH_RESULT_BYTES, &tally);
    }
}

/* Follows the log by its lines' own calls, from a start on memory of the same contents; gives the line that is refused, 0 where none is. */
static uint32_t follow(const char *what, const struct lent *lent, uint8_t *out, uint32_t *count) {
    free(memory);
    length = left_bytes;
    memory = filled(length, lent->fill);
    bench_start_answer started = bench_start((const uint8_t *)lent->rows, lent->rows_bytes, (const uint8_t *)lent->kinds, lent->kinds_bytes, lent->capacity,
                                             memory, length, &tally);
    expect(what, started.refusal, BENCH_ACCEPTED);
    *count = 0;
    for (size_t at = 0; at < log_bytes; at += LINE) {
        uint8_t result[BENCH_RESULT_BYTES];
        if (call(lent, text + at, result).refusal != BENCH_ACCEPTED) {
            return (uint32_t)(at / LINE + 1);
        }
        if (text[at + 5] == '0' + TAKE) {
            memcpy(out + (size_t)BENCH_RESULT_BYTES * *count, result, sizeof result);
            (*count)++;
        }
    }
    return 0;
}

/* The log is followed up to this line, which is refused; to its end where that is 0. */
static void followed(const char *what, const struct lent *lent, uint32_t row) {
    bench_log_answer answer = check(what, lent);
    uint8_t *out = filled(results_bytes, lent->fill);
    uint32_t count;
    expect(what, follow(what, lent, out, &count), row);
    expect(what, answer.refusal, row == 0 ? BENCH_ACCEPTED : BENCH_LOG_REFUSED);
    expect(what, answer.row, row);
    expect(what, answer.count, count);
    expect(what, answer.width, count == 0 ? 0 : memory[RESULTS_AT]);
    expect(what, memcmp(left, memory, length) == 0, 1);
    expect(what, results_bytes == 0 || memcmp(results, out, results_bytes) == 0, 1);
    expect(what, holds(results, (size_t)BENCH_RESULT_BYTES * count, results_bytes, lent->fill), 1);
    free(out);
}

static struct lent lent_for(const struct sheet *sheet, uint32_t capacity, const void *sets, size_t sets_bytes, uint32_t number) {
    return (struct lent){.rows = sheet->rows,
                         .rows_bytes = strlen(sheet->rows),
                         .kinds = sheet->kinds,
                         .kinds_bytes = strlen(sheet->kinds),
                         .capacity = capacity,
                         .number = number,
                         .sets = sets,
                         .sets_bytes = sets_bytes,
                         .fill = HELD};
}

/* Two sets on their way at once through the lesser of two, in an order that no run takes, and a third behind them (docs/NUMBERING.md has the operators). */
static const uint8_t readings[][BENCH_VALUE_BYTES] = {WHOLE(3), WHOLE(5), WHOLE(7), WHOLE(7), E_VALUE, WHOLE(2)};
static const uint8_t lesser[][BENCH_VALUE_BYTES] = {WHOLE(3), WHOLE(7), E_VALUE};
static const uint32_t interleaved[][2] = {{PUSH, 1}, {FIRE, 1}, {FIRE, 0}, {PUSH, 2}, {FIRE, 0}, {FIRE, 1}, {FIRE, 2}, {FIRE, 2}, {FIRE, 3}, {FIRE, 5}, {FIRE, 4},
                                          {FIRE, 6}, {FIRE, 7}, {TAKE, 0}, {FIRE, 3}, {FIRE, 4}, {FIRE, 5}, {FIRE, 6}, {FIRE, 7}, {TAKE, 0}, {PUSH, 3}, {FIRE, 0},
                                          {FIRE, 1}, {FIRE, 2}, {FIRE, 3}, {FIRE, 4}, {FIRE, 5}, {FIRE, 6}, {FIRE, 7}, {TAKE, 0}};
enum { LINES = sizeof interleaved / sizeof interleaved[0] };

static struct lent lesser_lent(void) {
    return lent_for(&lesser_of_two, 2, readings, sizeof readings, 3);
}

static void example(void) {
    struct lent lent = lesser_lent();
    lent.more_room = BEHIND;
    lent.more_memory = BEHIND;
    clear_log();
    put_lines(interleaved, LINES);
    followed("example", &lent, 0);
    for (size_t i = 0; i < sizeof lesser / sizeof lesser[0]; i++) {
        expect("example", memcmp(results + BENCH_RESULT_BYTES * i, lesser[i], BENCH_VALUE_BYTES) == 0, 1);
    }
    expect("example", holds(results, sizeof lesser / sizeof lesser[0] * BENCH_RESULT_BYTES, results_bytes, HELD), 1);
    expect("example", holds(left, left_bytes - BEHIND, left_bytes, HELD), 1);
    expect("example", left[UNTAKEN_AT], 0);
}

/* Before each line, and behind the last, a line that the machine refuses: absent operators, one that is not able, a take or a push too many. */
static void refused_lines(void) {
    static const uint32_t absent[] = {8, 1023, 1024, 999999};
    struct lent lent = lesser_lent();
    for (uint32_t at = 0; at <= LINES; at++) {
        for (size_t i = 0; i < sizeof absent / sizeof absent[0]; i++) {
            clear_log();
            put_lines(interleaved, at);
            put_line(FIRE, absent[i]);
            put_lines(interleaved + at, LINES - at);
            followed("absent", &lent, at + 1);
        }
    }
    clear_log();
    put_line(TAKE, 0);
    followed("a take of nothing", &lent, 1);
    clear_log();
    put_lines(interleaved, 1);
    put_line(TAKE, 0);
    followed("a take too early", &lent, 2);
    put_line(PUSH, 1);
    followed("the lowest of two", &lent, 2);
    clear_log();
    put_lines(interleaved, LINES);
    put_line(TAKE, 0);
    followed("one take too many", &lent, LINES + 1);
    clear_log();
    put_line(PUSH, 2);
    put_line(PUSH, 3);
    put_line(PUSH, 1);
    followed("a full link", &lent, 3);
    clear_log();
    put_line(PUSH, 2);
    put_line(FIRE, 2);
    followed("an operator that is not able", &lent, 2);
    lent.capacity = 1;
    clear_log();
    put_lines(interleaved, LINES);
    followed("a smaller capacity", &lent, 5);
    lent.capacity = MOST_CAPACITY;
    clear_log();
    for (uint32_t i = 0; i <= MOST_UNTAKEN; i++) {
        put_line(PUSH, i % 3 + 1);
    }
    followed("sixteen untaken", &lent, MOST_UNTAKEN + 1);
}

/* Every length of the log: a line that is not whole is 15, though a line before it would be refused. */
static void cut(void) {
    struct lent lent = lesser_lent();
    clear_log();
    put_lines(interleaved, LINES);
    for (size_t bytes = log_bytes; bytes > 0; bytes--) {
        log_bytes = bytes;
        if (bytes % LINE == 0) {
            followed("whole lines", &lent, 0);
        } else {
            refused("cut", &lent, BENCH_LOG_LINE, (uint32_t)(bytes / LINE) + 1);
        }
    }
    log_bytes = 0;
    followed("no lines", &lent, 0);
}

/* Lines that are none, as the first, in the middle and the last, and behind one that the machine would refuse. */
static void malformed(void) {
    static const char *const lines[] = {
        "     0     0\n", "     4     0\n", "     3     1\n", "     3999999\n", "     1     0\n", "     1     4\n", "     1999999\n", "100000     1\n",
        "    01     1\n", "     2    00\n", "     2000000\n", "     2    -1\n", "     2    +1\n", "     2     \n ", "     2      \n", "           0\n",
        "     2    0 \n", "1     0     \n", "     2\t    0\n", "     2     0\r", "     2     0 ", "     2   1 1\n", "\n\n\n\n\n\n\n\n\n\n\n\n\n", "     2     x\n",
        "     A     0\n", "     2    0\n\n", "             "};
    struct lent lent = lesser_lent();
    for (size_t i = 0; i < sizeof lines / sizeof lines[0]; i++) {
        static const uint32_t places[] = {0, 1, LINES / 2, LINES - 1, LINES};
        expect(lines[i], (uint32_t)strlen(lines[i]), LINE);
        for (size_t j = 0; j < sizeof places / sizeof places[0]; j++) {
            clear_log();
            put_lines(interleaved, places[j]);
            put_text(lines[i]);
            put_lines(interleaved + places[j], LINES - places[j]);
            refused(lines[i], &lent, BENCH_LOG_LINE, places[j] + 1);
            put_text(lines[i]);
            refused(lines[i], &lent, BENCH_LOG_LINE, places[j] + 1);
        }
        clear_log();
        put_line(TAKE, 0);
        put_text(lines[i]);
        refused(lines[i], &lent, BENCH_LOG_LINE, 2);
    }
}

/* A list of three sets at every length: one not wholly lent is 12, though no line names it, and bytes past the last are left aside. */
static void lists(void) {
    enum { SET = 2 * BENCH_VALUE_BYTES, MOST = sizeof readings + SET };
    uint8_t sets[MOST];
    memset(sets, 0xff, sizeof sets);
    memcpy(sets, readings, sizeof readings);
    clear_log();
    put_line(PUSH, 1);
    for (size_t bytes = 0; bytes <= MOST; bytes++) {
        struct lent lent = lent_for(&lesser_of_two, 2, sets, bytes, 3);
        if (bytes < sizeof readings) {
            refused("a list not wholly lent", &lent, BENCH_SET, 0);
        } else {
            followed("a list", &lent, 0);
        }
        lent.number = (uint32_t)(bytes / SET + 1);
        refused("one set more", &lent, BENCH_SET, 0);
        lent.number = UINT32_MAX;
        refused("the largest number", &lent, BENCH_SET, 0);
        lent.number = 0;
        refused("none", &lent, BENCH_LOG_LINE, 1);
    }
    for (size_t at = 0; at < sizeof readings / sizeof readings[0]; at++) {
        static const uint8_t others[][BENCH_VALUE_BYTES] = {TRUE_VALUE, {BENCH_REAL, 0, 0, 0, 0}, {0, 0, 0, 0, 0}};
        for (size_t i = 0; i < sizeof others / sizeof others[0] + sizeof no_reasons / sizeof no_reasons[0]; i++) {
            const uint8_t *value = i < 3 ? others[i] : no_reasons[i - 3];
            memcpy(sets, readings, sizeof readings);
            memcpy(sets + BENCH_VALUE_BYTES * at, value, BENCH_VALUE_BYTES);
            struct lent lent = lent_for(&lesser_of_two, 2, sets, sizeof readings, 3);
            refused("a bad value", &lent, BENCH_SET, 0);
            lent.number = (uint32_t)at / 2;
            if (lent.number == 0) {
                refused("before it none", &lent, BENCH_LOG_LINE, 1);
            } else {
                followed("behind the last set", &lent, 0);
            }
        }
    }
}

/* 11 before all, by the capacity asked, of 1 where it is none; then 14. */
static void lengths(void) {
    static const uint32_t none[] = {0, MOST_CAPACITY + 1, 255, 256, 257, UINT32_MAX};
    struct lent lent = lesser_lent();
    clear_log();
    put_lines(interleaved, LINES);
    for (uint32_t capacity = 2; capacity <= MOST_CAPACITY; capacity++) {
        lent.capacity = capacity;
        followed("enough", &lent, 0);
        lent.more_memory = -1;
        refused("short memory", &lent, BENCH_MEMORY, 0);
        lent.more_memory = 0;
        lent.more_room = -1;
        refused("short room", &lent, BENCH_MEMORY, 0);
        lent.more_room = 0;
    }
    for (size_t i = 0; i < sizeof none / sizeof none[0]; i++) {
        lent.capacity = none[i];
        refused("no capacity", &lent, BENCH_CAPACITY, 0);
        lent.more_memory = -1;
        refused("11 before 14", &lent, BENCH_MEMORY, 0);
        lent.more_memory = 0;
    }
    expect("room", BENCH_LOG_RESULTS_BYTES(25) == 0 && BENCH_LOG_RESULTS_BYTES(26) == BENCH_RESULT_BYTES, 1);
    expect("most room", BENCH_LOG_RESULTS_BYTES(LINE * MOST_LINES) == 163840 && BENCH_LOG_RESULTS_BYTES(SIZE_MAX) == 163840, 1);
}

/* The sheet's refusals with their rows, beside a bad set and a malformed line; before them 11 and 14. */
static void sheet_refused(const char *what, struct lent lent, uint32_t refusal, uint32_t row) {
    refused(what, &lent, refusal, row);
    lent.capacity = 0;
    refused(what, &lent, BENCH_CAPACITY, 0);
    lent.more_room = -1;
    refused(what, &lent, BENCH_MEMORY, 0);
}

static void sheets(void) {
    static char many[(MOST_ROWS + 1) * ROW_BYTES];
    struct lent lent = lesser_lent();
    lent.number = 4;
    clear_log();
    put_line(TAKE, 0);
    put_line(PUSH, 5);
    for (size_t i = 0; i < sizeof refused_sheets / sizeof refused_sheets[0]; i++) {
        const struct sheet sheet = {refused_sheets[i].rows, "F"};
        sheet_refused(refused_sheets[i].what, lent_for(&sheet, 2, readings, sizeof readings, 4), refused_sheets[i].refusal, refused_sheets[i].row);
    }
    lent.rows = many;
    lent.rows_bytes = too_many_rows(many);
    lent.kinds = "F";
    lent.kinds_bytes = 1;
    sheet_refused("too many rows", lent, BENCH_ROWS, 0);
    lent.rows_bytes = too_many_operators(many);
    lent.kinds = too_many_operators_kinds;
    lent.kinds_bytes = strlen(too_many_operators_kinds);
    sheet_refused("too many operators", lent, BENCH_OPERATORS, 0);
    lent.kinds_bytes--;
    sheet_refused("17 before 10", lent, BENCH_KINDS_LINE, 0);
    lent = lesser_lent();
    lent.number = 4;
    lent.kinds = "TW\n";
    sheet_refused("a comparison of two kinds", lent, BENCH_KINDS, 4);
    lent.kinds_bytes = 2;
    sheet_refused("17 before 18", lent, BENCH_KINDS_LINE, 0);
    lent = lesser_lent();
    lent.number = 4;
    refused("12 before 15", &lent, BENCH_SET, 0);
    lent.number = 3;
    refused("15 before 16", &lent, BENCH_LOG_LINE, 2);
    log_bytes = LINE;
    followed("16", &lent, 1);
}

/* As many lines as there may be, and more: a set through a sheet without operators, pushed and taken again and again. */
static void many_lines(void) {
    static const uint8_t sets[][BENCH_VALUE_BYTES] = {WHOLE(1), TRUE_VALUE, WHOLE(2), FALSE_VALUE};
    struct lent lent = lent_for(&pair, 1, sets, sizeof sets, 2);
    clear_log();
    for (uint32_t i = 0; i < MOST_LINES / 2; i++) {
        put_line(PUSH, i % 2 + 1);
        put_line(TAKE, 0);
    }
    followed("4,096 lines", &lent, 0);
    expect("4,096 lines", results_bytes == 163840, 1);
    memcpy(text + log_bytes, text, sizeof text - log_bytes);
    for (size_t behind = 1; behind <= 3 * LINE; behind++) {
        log_bytes = LINE * MOST_LINES + behind;
        refused("bytes behind 4,096 lines", &lent, BENCH_LOG_LINE, MOST_LINES + 1);
        expect("bytes behind 4,096 lines", results_bytes == 163840, 1);
    }
    log_bytes = sizeof text;
    refused("many more lines", &lent, BENCH_LOG_LINE, MOST_LINES + 1);
    memcpy(text, text + LINE, LINE);
    refused("line 4,097 before 16", &lent, BENCH_LOG_LINE, MOST_LINES + 1);
    log_bytes = LINE * MOST_LINES;
    followed("16 at the first of 4,096", &lent, 1);
    memcpy(text, text + 2 * LINE, LINE);
    memcpy(text + log_bytes - LINE, text, LINE);
    followed("16 at the last of 4,096", &lent, MOST_LINES);
    memcpy(text + log_bytes - 2 * LINE, text + LINE, LINE);
    followed("16 at the last but one of 4,096", &lent, MOST_LINES - 1);
    text[log_bytes - 1] = ' ';
    refused("15 at the last of 4,096", &lent, BENCH_LOG_LINE, MOST_LINES);
}

/* Puts a line for each operator that fires in rounds, on the machine in `memory`, until a take is accepted, and a line for that. */
static void put_way(void) {
    uint8_t out[BENCH_RESULT_BYTES];
    for (uint32_t round = 0; round < 100; round++) {
        if (bench_take(memory, length, out, sizeof out, &tally).refusal == BENCH_ACCEPTED) {
            put_line(TAKE, 0);
            return;
        }
        for (uint32_t i = 0; i < operators_of(memory); i++) {
            if (bench_fire(memory, length, i, &tally).refusal == BENCH_ACCEPTED) {
                put_line(FIRE, i);
            }
        }
    }
    expect("a way ends", 0, 1);
}

/* The last of 1,024 operators fires: "too many operators" with fewer ifs, and negations up to that many. */
static void most_operators(void) {
    static char many[MOST_ROWS * ROW_BYTES];
    static const uint8_t *const kinds = (const uint8_t *)too_many_operators_kinds;
    uint8_t set[20][BENCH_VALUE_BYTES];
    size_t kinds_bytes = strlen(too_many_operators_kinds), bytes = too_many_operators(many);
    while (bench_read((const uint8_t *)many, bytes, kinds, kinds_bytes).refusal == BENCH_OPERATORS) {
        bytes -= 3 * ROW_BYTES;
    }
    while (bench_read((const uint8_t *)many, bytes, kinds, kinds_bytes).operators < MOST_OPERATORS && bytes < sizeof many) {
        unsigned row = (unsigned)(bytes / ROW_BYTES);
        put_row(many, row + 1, OPERATOR, NEGATE, row, 0);
        bytes += ROW_BYTES;
    }
    expect("1,024 operators", bench_read((const uint8_t *)many, bytes, kinds, kinds_bytes).operators, MOST_OPERATORS);
    for (size_t i = 0; i < 19; i++) {
        memcpy(set[i], (uint8_t[])WHOLE(1), BENCH_VALUE_BYTES);
    }
    memcpy(set[19], (uint8_t[])TRUE_VALUE, BENCH_VALUE_BYTES);
    struct lent lent = {.rows = many, .rows_bytes = bytes, .kinds = too_many_operators_kinds, .kinds_bytes = kinds_bytes, .capacity = 1, .number = 1,
                        .sets = set[0], .sets_bytes = sizeof set, .fill = HELD};
    clear_log();
    put_line(PUSH, 1);
    put_line(FIRE, MOST_OPERATORS - 1);
    followed("operator 1,023, not able", &lent, 2);
    clear_log();
    put_line(PUSH, 1);
    put_line(FIRE, MOST_OPERATORS);
    followed("operator 1,024", &lent, 2);
    /* one push is in the machine that was followed last */
    log_bytes = LINE;
    put_way();
    followed("1,024 operators", &lent, 0);
    expect("the last operator's line", memcmp(text + log_bytes - 2 * LINE, "     2  1023\n", LINE) == 0, 1);
}

/* Sets of no bytes: any number of them is there, and none of them is looked at. */
static void no_inputs(void) {
    static const struct sheet seven = {"     2     7     0     0     0\n", "\n"};
    struct lent lent = lent_for(&seven, 1, NULL, 0, UINT32_MAX);
    clear_log();
    put_line(PUSH, 999999);
    put_line(FIRE, 0);
    put_line(TAKE, 0);
    followed("the largest number", &lent, 0);
    lent.number = 999999;
    followed("the greatest field", &lent, 0);
    lent.number = 999998;
    refused("one fewer", &lent, BENCH_LOG_LINE, 1);
    lent.number = 0;
    refused("none", &lent, BENCH_LOG_LINE, 1);
    lent = lent_for(&seven, 1, no_reasons[0], BENCH_VALUE_BYTES, UINT32_MAX);
    followed("bytes left aside", &lent, 0);
}

/* A length of 0 with NULL. */
static void nothing_lent(void) {
    static const uint8_t *const rows = (const uint8_t *)"     1     0     0     0     0\n", *const kinds = (const uint8_t *)"W\n";
    uint8_t *mem = filled(BENCH_MACHINE_BYTES(1), HELD);
    const size_t bytes = BENCH_MACHINE_BYTES(1);
    expect("no memory", bench_check_log(rows, 31, kinds, 2, 1, NULL, 0, 0, NULL, 0, NULL, 0, NULL, 0).refusal, BENCH_MEMORY);
    expect("no sheet", bench_check_log(NULL, 0, kinds, 2, 1, NULL, 0, 0, NULL, 0, mem, bytes, NULL, 0).refusal, BENCH_LINES);
    expect("no kinds line", bench_check_log(rows, 31, NULL, 0, 1, NULL, 0, 0, NULL, 0, mem, bytes, NULL, 0).refusal, BENCH_KINDS_LINE);
    expect("no set", bench_check_log(rows, 31, kinds, 2, 1, NULL, 0, 1, NULL, 0, mem, bytes, NULL, 0).refusal, BENCH_SET);
    expect("all left", holds(mem, 0, bytes, HELD), 1);
    bench_log_answer answer = bench_check_log(rows, 31, kinds, 2, 1, NULL, 0, 0, NULL, 0, mem, bytes, NULL, 0);
    expect("no log", answer.refusal == BENCH_ACCEPTED && answer.row == 0 && answer.count == 0 && answer.width == 0, 1);
    expect("a machine", bench_push(mem, bytes, readings[0], BENCH_VALUE_BYTES, &tally).refusal, BENCH_ACCEPTED);
    free(mem);
}

/* Whatever the memory held, the lines lead to the same results, and so does going on from there. */
static void contents(void) {
    static const uint8_t fills[] = {0, 1, 2, 3, 16, HELD, 0xff};
    struct lent lent = lesser_lent();
    clear_log();
    put_lines(interleaved, LINES);
    for (size_t i = 0; i < sizeof fills; i++) {
        lent.fill = fills[i];
        followed("contents", &lent, 0);
        expect("contents", memcmp(results + BENCH_RESULT_BYTES, lesser[1], BENCH_VALUE_BYTES) == 0, 1);
    }
    lent.fill = HELD;
    check("a machine before it", &lent);
    uint8_t *first = lend(left, left_bytes);
    bench_log_answer answer = bench_check_log((const uint8_t *)lent.rows, lent.rows_bytes, (const uint8_t *)lent.kinds, lent.kinds_bytes, lent.capacity, lent.sets,
                                              lent.sets_bytes, lent.number, (const uint8_t *)text, log_bytes, left, left_bytes, results, results_bytes);
    expect("the same again", answer.count, 3);
    expect("the same again", memcmp(left, first, left_bytes) == 0, 1);
    free(first);
}

/* The machine that a check left, accepted or with 16, is driven on by the other calls: factorials of sets that the log pushed and of one more. */
static void go_on(uint32_t refusal) {
    static const uint8_t numbers[][BENCH_VALUE_BYTES] = {WHOLE(5), Z_VALUE, WHOLE(3)}, more[] = WHOLE(4);
    static const uint8_t factorials[][BENCH_VALUE_BYTES] = {WHOLE(120), E_VALUE, WHOLE(6), WHOLE(24)};
    struct lent lent = lent_for(&factorial, MOST_CAPACITY, numbers, sizeof numbers, 3);
    clear_log();
    put_line(PUSH, 1);
    followed("one push", &lent, 0);
    put_way();
    put_line(PUSH, 2);
    put_line(PUSH, 3);
    put_line(FIRE, 0);
    if (refusal != BENCH_ACCEPTED) {
        put_line(FIRE, 999999);
    }
    followed("factorials", &lent, refusal == BENCH_ACCEPTED ? 0 : (uint32_t)(log_bytes / LINE));
    expect("the first", memcmp(results, factorials[0], BENCH_VALUE_BYTES) == 0, 1);
    uint8_t out[BENCH_RESULT_BYTES];
    expect("another", bench_push(left, left_bytes, more, sizeof more, &tally).refusal, BENCH_ACCEPTED);
    expect("a run", bench_run(left, left_bytes, 100000, &tally).refusal, BENCH_ACCEPTED);
    for (size_t i = 1; i < sizeof factorials / sizeof factorials[0]; i++) {
        expect("a take", bench_take(left, left_bytes, out, sizeof out, &tally).refusal, BENCH_ACCEPTED);
        expect("its own", memcmp(out, factorials[i], BENCH_VALUE_BYTES) == 0, 1);
    }
    expect("no more", bench_take(left, left_bytes, out, sizeof out, &tally).refusal, BENCH_NO_RESULT);
}

int main(void) {
    example();
    refused_lines();
    cut();
    malformed();
    lists();
    lengths();
    sheets();
    many_lines();
    most_operators();
    no_inputs();
    nothing_lent();
    contents();
    go_on(BENCH_ACCEPTED);
    go_on(BENCH_LOG_REFUSED);
    free(left);
    free(results);
    free(memory);
    return tell();
}
