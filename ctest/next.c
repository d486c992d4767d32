/*
 * The list of small sheets through the C interface: the whole walk by two buffers in turn, each refusal, and every byte of the lent memory, at lengths about its
 * need. Sheets that are handed in beside the walk, and the memory, are allocated at their exact length, so that a tool which watches memory sees an access past
 * their ends.
 */
#include <stddef.h>

#include "held.h"
#include "refused.h"

_Static_assert(sizeof(bench_next_answer) == 12 && offsetof(bench_next_answer, row) == 4 && offsetof(bench_next_answer, rows) == 8, "layout");
_Static_assert(BENCH_SMALL_SHEET_BYTES == 155, "need");

enum { ROOM = BENCH_SMALL_SHEET_BYTES, SMALL_ROWS = 5, ALL = 35298 };

/* How many there are of each number of rows, and FNV-1a over the bytes of all up to that number. */
static const struct {
    uint32_t sheets;
    uint64_t digest;
} of_rows[SMALL_ROWS] = {
    {6, UINT64_C(0x2c84458088fe3288)},     {12, UINT64_C(0xd927e9ff42bc4ffc)},    {120, UINT64_C(0x8747bcc61988521a)},
    {2616, UINT64_C(0x5f3a894931b9c0e2)}, {32544, UINT64_C(0x16cc112cb3f28a12)},
};

static const char first[] = "     1     0     0     0     0\n";

static const char last[] =
    "     3     1     0     0     0\n"
    "     5    11     1     0     0\n"
    "     5    11     2     0     0\n"
    "     5    11     3     0     0\n"
    "     5    11     4     0     0\n";

static uint64_t digest_with(uint64_t digest, const uint8_t *bytes, size_t length) {
    for (size_t i = 0; i < length; i++) {
        digest = (digest ^ bytes[i]) * UINT64_C(0x100000001b3);
    }
    return digest;
}

/* The sheet passes tests 1 to 9, which come before the kinds line: of lines for none, one and two inputs one fits. */
static void read_by_tests(const uint8_t *sheet, size_t bytes) {
    static const uint8_t kinds[] = {'W', 'W', '\n'};
    int fitting = 0;
    for (size_t inputs = 0; inputs <= 2; inputs++) {
        uint32_t refusal = bench_read(sheet, bytes, kinds + 2 - inputs, inputs + 1).refusal;
        fitting += refusal != BENCH_KINDS_LINE;
        expect("read", refusal == BENCH_ACCEPTED || refusal == BENCH_KINDS_LINE || refusal == BENCH_KINDS, 1);
    }
    expect("a line for the inputs", fitting == 1, 1);
}

/* Whether a sheet comes before another: fewer rows, or as many and the lesser bytes. */
static int rises(const uint8_t *sheet, size_t bytes, const uint8_t *next, size_t next_bytes) {
    return bytes < next_bytes || (bytes == next_bytes && memcmp(sheet, next, bytes) < 0);
}

/* From the empty sheet on, each call is lent what the one before wrote. */
static void walk(void) {
    uint8_t *buffers[2] = {hold(ROOM), hold(ROOM)};
    uint32_t sheets[SMALL_ROWS + 1] = {0}, calls = 0;
    uint64_t digests[SMALL_ROWS + 1] = {0}, digest = UINT64_C(0xcbf29ce484222325);
    size_t bytes = 0;
    bench_next_answer answer;
    for (;; calls++) {
        uint8_t *given = buffers[calls % 2], *out = buffers[(calls + 1) % 2];
        memset(out, HELD, ROOM);
        answer = bench_next(given, bytes, out, ROOM);
        size_t next_bytes = BENCH_ROW_BYTES * (size_t)answer.rows;
        expect("the walk", answer.row == 0 && answer.rows <= SMALL_ROWS && all_held(out + next_bytes, out + ROOM), 1);
        if (answer.refusal != BENCH_ACCEPTED || calls > ALL) {
            break;
        }
        expect("the walk", rises(given, bytes, out, next_bytes), 1);
        read_by_tests(out, next_bytes);
        digest = digest_with(digest, out, next_bytes);
        digests[answer.rows] = digest;
        sheets[answer.rows]++;
        bytes = next_bytes;
    }
    expect("behind the last", answer.refusal, BENCH_LAST_LISTED);
    expect("behind the last", answer.rows, 0);
    expect("all", calls, ALL);
    expect("the last", bytes == sizeof last - 1 && memcmp(buffers[calls % 2], last, bytes) == 0, 1);
    for (int rows = 1; rows <= SMALL_ROWS; rows++) {
        expect("of so many rows", sheets[rows], of_rows[rows - 1].sheets);
        expect("their bytes", digests[rows] == of_rows[rows - 1].digest, 1);
    }
    free(buffers[0]);
    free(buffers[1]);
}

/* The sheet is refused with so much memory lent, and nothing is written. */
static void refused(const char *what, const char *sheet, size_t bytes, size_t room, uint32_t refusal) {
    uint8_t *lent = lend(sheet, bytes), *out = hold(room);
    bench_next_answer answer = bench_next(lent, bytes, out, room);
    expect(what, answer.refusal, refusal);
    expect(what, answer.row, 0);
    expect(what, answer.rows, 0);
    expect(what, room == 0 || all_held(out, out + room), 1);
    expect(what, bytes == 0 || memcmp(lent, sheet, bytes) == 0, 1);
    free(lent);
    free(out);
}

/* The same at lengths of the memory about the need: it is that of five rows, whatever is handed in, and 11 comes before 22 and 23. */
static void refused_alike(const char *what, const char *sheet, size_t bytes, uint32_t refusal) {
    refused(what, sheet, bytes, ROOM, refusal);
    refused(what, sheet, bytes, ROOM + 1, refusal);
    refused(what, sheet, bytes, ROOM - 1, BENCH_MEMORY);
    refused(what, sheet, bytes, 0, BENCH_MEMORY);
}

/* Behind the sheet stands `next`. */
static void listed(const char *what, const char *sheet, const char *next) {
    static const size_t more[] = {0, 1, 100};
    size_t bytes = strlen(sheet), next_bytes = strlen(next);
    for (size_t i = 0; i < sizeof more / sizeof more[0]; i++) {
        size_t room = ROOM + more[i];
        uint8_t *lent = lend(sheet, bytes), *out = hold(room);
        bench_next_answer answer = bench_next(lent, bytes, out, room);
        expect(what, answer.refusal, BENCH_ACCEPTED);
        expect(what, answer.row, 0);
        expect(what, answer.rows, (uint32_t)(next_bytes / ROW_BYTES));
        expect(what, memcmp(out, next, next_bytes) == 0, 1);
        expect(what, all_held(out + next_bytes, out + room), 1);
        expect(what, bytes == 0 || memcmp(lent, sheet, bytes) == 0, 1);
        free(lent);
        free(out);
    }
    refused(what, sheet, bytes, ROOM - 1, BENCH_MEMORY);
    refused(what, sheet, bytes, next_bytes, BENCH_MEMORY);
}

/* Neighbours, by hand; none of the second ones has five rows. */
static const struct {
    const char *what, *sheet, *next;
} neighbours[] = {
    {"no sheet", "", first},
    {"the first", first, "     1     1     0     0     0\n"},
    {"false", "     3     0     0     0     0\n", "     3     1     0     0     0\n"},
    {"the last of one row", "     3     1     0     0     0\n", "     1     0     0     0     0\n     5    10     1     0     0\n"},
    {"not", "     1     0     0     0     0\n     5    10     1     0     0\n", "     1     0     0     0     0\n     5    11     1     0     0\n"},
    {"the last of two rows", "     3     1     0     0     0\n     5    11     1     0     0\n",
     "     1     0     0     0     0\n     1     0     0     0     0\n     4     1     2     0     0\n"},
    {"a pair", "     1     0     0     0     0\n     1     0     0     0     0\n     4     1     2     0     0\n",
     "     1     0     0     0     0\n     1     0     0     0     0\n     4     2     1     0     0\n"},
    {"a pair crosswise", "     1     0     0     0     0\n     1     0     0     0     0\n     4     2     1     0     0\n",
     "     1     0     0     0     0\n     1     0     0     0     0\n     6     0     1     1     2\n"},
};

/* Each is small but for one thing. Those up to the loop pass tests 1 to 9, save the let that is too narrow. */
static const struct {
    const char *what, *sheet;
} unlisted[] = {
    {"six rows",
     "     1     0     0     0     0\n     5    11     1     0     0\n     5    11     2     0     0\n     5    11     3     0     0\n     5    11     4     0     0\n"
     "     5    11     5     0     0\n"},
    {"identifier 2", "     1     2     0     0     0\n"},
    {"identifier 31, negated", "     1    31     0     0     0\n     5    11     1     0     0\n"},
    {"constant 2", "     2     2     0     0     0\n"},
    {"constant 999,999 in a pair", "     1     0     0     0     0\n     2999999     0     0     0\n     4     1     2     0     0\n"},
    {"row kind 10", "    10     0     0     0     0\n"},
    {"row kind 10, negated", "    10     1     0     0     0\n     5    11     1     0     0\n"},
    {"a let of identifier 2", "     2     1     0     0     0\n     1     2     0     0     0\n     6     2     1     1     2\n"},
    {"a let of identifiers 1 and 2",
     "     2     1     0     0     0\n     2     1     0     0     0\n     4     1     2     0     0\n     1     1     0     0     0\n     1     2     0     0     0\n"
     "     4     4     5     0     0\n     6     1     2     3     6\n"},
    {"a let of identifiers 1 and 2 that is too narrow", "     2     1     0     0     0\n     1     1     0     0     0\n     6     1     2     1     2\n"},
    {"the smallest loop",
     "     3     0     0     0     0\n     1     0     0     0     0\n     1     0     0     0     0\n     9     3     0     0     0\n     1     0     0     0     0\n"
     "     7     2     4     5     0\n     8     0     1     1     6\n"},
    {"a truth of 2", "     3     2     0     0     0\n"},
    {"row kind 0", "     0     0     0     0     0\n"},
    {"31 spaces", "                               "},
    {"a lone line feed", "\n"},
    {"a byte behind", "     1     0     0     0     0\n "},
    {"a line feed behind", "     1     0     0     0     0\n\n"},
    {"a tab for a space", "\t    1     0     0     0     0\n"},
    {"left-justified", "1          0     0     0     0\n"},
    {"rows in another order", "     5    10     2     0     0\n     1     0     0     0     0\n"},
};

static void refusals(void) {
    for (size_t i = 0; i < sizeof unlisted / sizeof unlisted[0]; i++) {
        refused_alike(unlisted[i].what, unlisted[i].sheet, strlen(unlisted[i].sheet), BENCH_UNLISTED);
    }
    for (size_t i = 0; i < sizeof refused_sheets / sizeof refused_sheets[0]; i++) {
        size_t bytes = strlen(refused_sheets[i].rows);
        if (bytes > 0) {
            refused_alike(refused_sheets[i].what, refused_sheets[i].rows, bytes, BENCH_UNLISTED);
        }
    }
    refused_alike("the last", last, sizeof last - 1, BENCH_LAST_LISTED);
}

/* Each byte of the last sheet altered to each other value is either another small sheet, which comes before it, or 22. */
static void altered_bytes(void) {
    char sheet[sizeof last - 1];
    uint8_t out[ROOM];
    for (size_t place = 0; place < sizeof sheet; place++) {
        for (int byte = 0; byte < 256; byte++) {
            memcpy(sheet, last, sizeof sheet);
            sheet[place] = (char)byte;
            int before = memcmp(sheet, last, sizeof sheet);
            bench_next_answer answer = bench_next((const uint8_t *)sheet, sizeof sheet, out, ROOM);
            int small = answer.refusal == BENCH_ACCEPTED && answer.rows == SMALL_ROWS && before < 0;
            expect("an altered byte", small || answer.refusal == (before == 0 ? BENCH_LAST_LISTED : BENCH_UNLISTED), 1);
        }
    }
}

/* 5, 6, 200 and 201 rows of negations, and the first five of them cut. */
static void long_sheets(void) {
    char sheet[(MOST_ROWS + 1) * ROW_BYTES];
    size_t bytes = too_many_rows(sheet);
    refused("201 rows", sheet, bytes, ROOM, BENCH_UNLISTED);
    refused("201 rows", sheet, bytes, ROOM - 1, BENCH_MEMORY);
    refused("200 rows", sheet, bytes - ROW_BYTES, ROOM, BENCH_UNLISTED);
    refused("six rows", sheet, ROOM + ROW_BYTES, ROOM, BENCH_UNLISTED);
    for (size_t cut = 1; cut < ROOM; cut++) {
        if (cut % ROW_BYTES != 0) {
            refused("five rows, cut", sheet, cut, ROOM, BENCH_UNLISTED);
        }
    }
}

static void nothing_lent(void) {
    uint8_t out[ROOM];
    memset(out, HELD, sizeof out);
    expect("nothing", bench_next(NULL, 0, NULL, 0).refusal, BENCH_MEMORY);
    expect("no memory", bench_next((const uint8_t *)first, sizeof first - 1, NULL, 0).refusal, BENCH_MEMORY);
    bench_next_answer answer = bench_next(NULL, 0, out, sizeof out);
    expect("no sheet", answer.refusal, BENCH_ACCEPTED);
    expect("no sheet", answer.rows, 1);
    expect("no sheet", memcmp(out, first, sizeof first - 1) == 0, 1);
    expect("no sheet", all_held(out + sizeof first - 1, out + sizeof out), 1);
}

int main(void) {
    walk();
    for (size_t i = 0; i < sizeof neighbours / sizeof neighbours[0]; i++) {
        listed(neighbours[i].what, neighbours[i].sheet, neighbours[i].next);
    }
    refusals();
    altered_bytes();
    long_sheets();
    nothing_lent();
    return tell();
}
