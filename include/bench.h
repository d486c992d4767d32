/*
 * The formula machine of the beacon bench.
 *
 * A formula sheet is read (bench_read), evaluated directly (bench_evaluate), or started as a machine on memory that the caller lends
 * (bench_start) and then driven by pushes, firings, runs and takes. A sheet with rows that its formula no longer uses is tidied first (bench_tidy).
 * How far a formula's results can move where its inputs move within tolerances is told by bench_drift. All small sheets, for the factory, are written one after another
 * by bench_next. The log of a bench that drives such machines in its own order is checked by following it (bench_check_log). A second machine, for sheets
 * without for, lets quick sets overtake slow ones (bench_tagged_start and the calls behind it). No call keeps anything but what
 * stands in that memory and in the tally: there is no heap and no global. Every call always returns, for any bytes and any numbers.
 *
 * Lent memory. A pointer goes with its length in bytes; a length of 0 goes with any pointer, NULL included. The stretches lent to one
 * call must not overlap, and nothing else may write them during the call. That and what is said of the tally is all that is asked of a caller:
 * whatever the bytes are, a call touches none outside of them.
 *
 * Refusals. `refusal` is 0 where a call is accepted, else one of the numbers below, the first that applies in the order each call gives.
 * A refused call leaves every lent byte as it was, and its other numbers are 0, save `row` where it names a row or a line, a run refused with
 * BENCH_UNFINISHED, which keeps its firings and gives their count (one by rounds its rounds too), a tray, which keeps the sets that went in
 * before the refused one and gives their count, and a log's check refused with BENCH_LOG_REFUSED, which leaves machine, results and their count as the
 * earlier lines made them. The tally is left out of this: a refused push is counted there. Bytes past what a call writes out keep what they held.
 *
 * Tally. Each call on a machine, bench_start too, is lent a record as well, a bench_tally, and updates it in place: what firmware shows at its
 * service hatch. The pointer must not be NULL, the record must not overlap the stretches lent beside it, and nothing else may write it during the
 * call. Any numbers may stand in it. A log's check has none: the lines that it follows are another bench's. Nor has a machine with tags.
 *
 * Values. A value is BENCH_VALUE_BYTES bytes: a tag (BENCH_WHOLE, BENCH_TRUTH, BENCH_ERR or BENCH_REAL) and four bytes, lowest first: a whole
 * number as int32_t, a truth as 0 or 1, an err as its reason, one of BENCH_ERR_... below, a float as its bits, a finite IEEE 754 binary32. Nothing
 * else is a value.
 *
 * Floats. Their operators are those of IEEE 754, to nearest, ties to even, with subnormal numbers. That is the processor's mode when a program
 * starts; a call must not be made in another one (on x86-64 the rounding, flush-to-zero and denormals-are-zero bits of MXCSR are 0).
 *
 * Sets. The inputs are the identifiers that are free in the formula, and a set is one value for each, one after another, by rising identifier:
 * a formula in which 3 and 17 are free takes the value of 3, then that of 17. Results stand in the order of the formula's values.
 *
 * Kinds. A sheet comes with its kinds line: one letter an input, in the order of a set's values, BENCH_KIND_WHOLE, BENCH_KIND_TRUTH or
 * BENCH_KIND_REAL, and a line feed behind them; of a formula without inputs it is the line feed alone. A set's values must be of these kinds or errs. A start stores the
 * letters, so that the calls on a machine need no line.
 */
#ifndef BENCH_H
#define BENCH_H

#include <stddef.h>
#include <stdint.h>

#ifdef __cplusplus
extern "C" {
#endif

/* The tags of a value, and its length. */
enum { BENCH_WHOLE = 1, BENCH_TRUTH = 2, BENCH_ERR = 3, BENCH_REAL = 4 };
#define BENCH_VALUE_BYTES 5

/*
 * The reason of an err, as its four bytes. Whether a value is an err its tag alone says. An operator with err operands hands on the leftmost err;
 * a test that is no truth gives BENCH_ERR_OTHER, whatever reason it carried.
 */
enum {
    BENCH_ERR_OTHER = 0,        /* E: all else; also every place of a result set past its width */
    BENCH_ERR_ZERO_DIVISOR = 1, /* Z; of floats also -0 */
    BENCH_ERR_OUT_OF_RANGE = 2  /* V: an exact answer outside the range of whole numbers, or one of floats that is no finite number */
};

/* The letters of a kinds line. */
enum { BENCH_KIND_WHOLE = 'W', BENCH_KIND_TRUTH = 'T', BENCH_KIND_REAL = 'R' };

/* Said of what was handed in. `row` counts from 1 for 3 to 9, 15, 16, 18 and 20 and is 0 for the others. */
enum {
    BENCH_ACCEPTED = 0,
    BENCH_LINES = 1,        /* empty, not in 31-byte rows, or a row without its line feed */
    BENCH_ROWS = 2,         /* over 200 rows */
    BENCH_FIELD = 3,        /* a malformed field */
    BENCH_RANGE = 4,        /* kind, code, identifier, constant or unlisted field outside its range */
    BENCH_NAMING = 5,       /* a row that names one wrongly */
    BENCH_NAMED = 6,        /* a row before the last not named once */
    BENCH_ITER = 7,         /* iter in an expression place */
    BENCH_WIDTH = 8,        /* a width rule broken */
    BENCH_BOUND = 9,        /* a bound identifier not free in row d */
    BENCH_OPERATORS = 10,   /* over 1,024 operators */
    BENCH_MEMORY = 11,      /* lent memory shorter than the call's need */
    BENCH_SET = 12,         /* a set with another number of values than inputs, a bad value, or a value of another kind than its input's */
    BENCH_CAPACITY = 14,    /* a capacity outside 1..16 */
    BENCH_LOG_LINE = 15,    /* a log's line that is malformed, names a set not in the list or is line 4,097 */
    BENCH_LOG_REFUSED = 16, /* a log's line that the machine would refuse */
    BENCH_KINDS_LINE = 17,  /* a kinds line of another length, or with another letter */
    BENCH_KINDS = 18,       /* a row that breaks the kinds: an operator or test of another kind, arms or loop rounds that do not agree */
    BENCH_LOOP = 19,        /* a sheet with a for, for a machine with tags */
    BENCH_SORT = 20,        /* a row that drift cannot be told for, or with a value not of kind W */
    BENCH_MOVEMENT = 21,    /* tolerances not as many as the inputs, one out of range, or a row's movement past 2,147,483,647 */
    BENCH_UNLISTED = 22,    /* a given sheet that is neither empty nor a small one */
    BENCH_LAST_LISTED = 23, /* the last small sheet, which has no next one */

    /* Said of how the machine stands. */
    BENCH_ALTERED = 31,     /* a stored figure, letter or token outside its range, or a link named twice by one operator, the inputs or the results;
                               never given by a machine's own calls where only they wrote since its start: an accepted bench_start, the start within
                               bench_check_log, or, of a machine with tags, an accepted bench_tagged_start */
    BENCH_UNTAKEN = 32,     /* sixteen sets untaken */
    BENCH_FULL = 33,        /* an input link, or the trigger's, full */
    BENCH_NOT_ABLE = 34,    /* the operator is absent or not able to fire; of a machine with tags also where the tag is absent */
    BENCH_NO_RESULT = 35,   /* a result port empty, or no set untaken */
    BENCH_UNFINISHED = 36,  /* run: something can still fire after the lent firings or rounds; evaluation: more rounds needed than lent */
    BENCH_NO_TAG = 37,      /* no tag is free */
    BENCH_NO_TAG_RESULT = 38 /* the tag is absent or has no whole result */
};

/* A sheet's rows: how many bytes one has. */
#define BENCH_ROW_BYTES 31

/* What a tidied sheet needs: as many bytes as the sheet has, 6,200 at the most, for 200 rows. */
#define BENCH_TIDY_BYTES(sheet_bytes) ((size_t)(sheet_bytes) < 200 * BENCH_ROW_BYTES ? (size_t)(sheet_bytes) : 200 * BENCH_ROW_BYTES)

/* The bytes of a tolerance and of a number of drift, and what the numbers need: those of sixteen results. */
#define BENCH_NUMBER_BYTES 4
#define BENCH_DRIFT_BYTES (16 * BENCH_NUMBER_BYTES)

/* What a small sheet needs: five rows. */
#define BENCH_SMALL_SHEET_BYTES (5 * BENCH_ROW_BYTES)

/* What a result set needs: sixteen values. */
#define BENCH_RESULT_BYTES (16 * BENCH_VALUE_BYTES)

/* What a machine needs at a capacity of 1 to 16: 40,390 bytes at 1, 55,915 at 2, 15,525 more for each further place. */
#define BENCH_MACHINE_BYTES(capacity) ((size_t)21760 + 3105 * (5 * (size_t)(capacity) + 1))

/* What a machine with tags needs, and how many tags it has: 0 to 15. */
#define BENCH_TAGGED_BYTES ((size_t)319856)
#define BENCH_TAGS 16

/* A log's lines: how many bytes one has, and how many there may be. */
#define BENCH_LOG_LINE_BYTES 13
#define BENCH_LOG_MOST_LINES 4096

/* What the results of a log need: a result set for every two lines, for its push and its take; 163,840 bytes at the most. */
#define BENCH_LOG_RESULTS_BYTES(log_bytes) (BENCH_RESULT_BYTES * ((size_t)(log_bytes) / 26 < 2048 ? (size_t)(log_bytes) / 26 : 2048))

typedef struct {
    uint32_t refusal;
    uint32_t row;
    uint32_t rows;
    uint32_t operators;
    uint32_t inputs;
    uint32_t results;
} bench_read_answer;

typedef struct {
    uint32_t refusal;
    uint32_t row;
    uint32_t rows; /* of the new sheet */
} bench_tidy_answer;

typedef struct {
    uint32_t refusal;
    uint32_t row;
    uint32_t results; /* how many numbers stand in `out` */
} bench_drift_answer;

typedef struct {
    uint32_t refusal;
    uint32_t row;  /* 0 */
    uint32_t rows; /* of the next sheet */
} bench_next_answer;

typedef struct {
    uint32_t refusal;
    uint32_t row;
    uint32_t width;  /* how many of the sixteen values are the formula's; the others are E */
    uint32_t rounds; /* rounds used */
} bench_evaluate_answer;

typedef struct {
    uint32_t refusal;
    uint32_t row;
    uint32_t operators;
    uint32_t inputs;
    uint32_t results;
} bench_start_answer;

typedef struct {
    uint32_t refusal;
    uint32_t count; /* a run's firings, a taken result set's width, a tray's sets that went in, the tag of a set pushed with one, else 0 */
} bench_answer;

typedef struct {
    uint32_t refusal;
    uint32_t rounds;  /* those in which something fired */
    uint64_t firings; /* in all of them: up to 1,024 a round, which 32 bits need not hold */
} bench_rounds_answer;

typedef struct {
    uint32_t refusal;
    uint32_t row;   /* the log's line for 15 and 16, else a row of the sheet */
    uint32_t count; /* result sets handed out, also beside 16 */
    uint32_t width; /* how many of the sixteen values of each are the formula's; 0 where none is handed out */
} bench_log_answer;

/*
 * What a machine has done since its start, where each call since was lent this record and nothing else wrote it. Each number stops at
 * 4,294,967,295 (UINT32_MAX) and does not go round. An accepted bench_start sets all three to 0; a refused one leaves them. No byte of a machine
 * and no answer depends on the record.
 */
typedef struct {
    uint32_t firings; /* of accepted bench_fire, and of runs of both sorts, also beside BENCH_UNFINISHED */
    uint32_t takes;   /* accepted ones */
    uint32_t refused; /* calls of bench_push and bench_push_tray with any refusal: a tray counts once, whichever set was refused */
} bench_tally;

/* Reads a formula sheet with its kinds line. Refusals, in this order: 1 to 9, 17, 18, 10. */
bench_read_answer bench_read(const uint8_t *sheet, size_t sheet_bytes, const uint8_t *kinds, size_t kinds_bytes);

/*
 * Tidies a sheet: writes it to the start of `out` without the rows that its last row does not reach. Kept are the last row and every row that a field
 * of a kept row names, in their old order; fields that name rows get their new numbers. The new sheet is the first BENCH_ROW_BYTES * rows bytes of
 * `out`; bytes past it are left alone. Tidying it again changes nothing more. There is no kinds line, and nothing from 6 on is tested or mended: the
 * new sheet gets BENCH_NAMED exactly when two fields of its rows name the same row, and a sheet that passes 1 to 6 comes back as it is. Refusals, in
 * this order: 11 (`out` shorter than BENCH_TIDY_BYTES of the sheet's bytes), 1 to 5.
 */
bench_tidy_answer bench_tidy(const uint8_t *sheet, size_t sheet_bytes, uint8_t *out, size_t out_bytes);

/*
 * Says how far each result of a formula can move. `tolerances` has one number an input, in the order of a set's values, and the answer's `results` numbers
 * stand from the start of `out` on, one a result; each is BENCH_NUMBER_BYTES bytes, lowest first, 0 to 2,147,483,647. Take two sets of which each input
 * is an err in one of them or differs by no more than its tolerance: then each result that is an err in neither set differs by no more than its number.
 * Bytes of `out` past the numbers are left alone.
 *
 * It is told for sheets whose values are all of kind W, of identifiers, whole constants (row kind 2), pairs, lets, add, subtract, negate, multiply whose
 * operand row is a pair that names a whole constant, and divide whose operand row is a pair with b naming one that is not 0. Movements add; a constant
 * multiplies them; a divide by c gives the movement over c, rounded up. Refusals, in this order: 11 (`out` shorter than BENCH_DRIFT_BYTES), 1 to 9, 17, 18,
 * 10, 20 (the lowest such row), 21 (row 0; tolerances of another length than BENCH_NUMBER_BYTES an input, and a number past the range in any row, also one
 * that a later divide would make smaller).
 */
bench_drift_answer bench_drift(const uint8_t *sheet, size_t sheet_bytes, const uint8_t *kinds, size_t kinds_bytes, const uint8_t *tolerances,
                               size_t tolerances_bytes, uint8_t *out, size_t out_bytes);

/*
 * Writes the next small sheet to the start of `out`. A small sheet passes tests 1 to 9 (there is no kinds line) and has at most five rows, row kinds 1 to 9,
 * identifiers and constants 0 and 1, and any codes; a let's or for's identifiers are those it binds. Of two of them the one with fewer rows comes first, of as
 * many rows the one with the lesser byte where they first differ. `sheet` is one of them, or of no bytes for the first: calls that are each lent what the one
 * before wrote list every small sheet once, 35,298 in all. The next one is the first BENCH_ROW_BYTES * rows bytes of `out`; bytes past it are left alone. As
 * stretches must not overlap, take two buffers in turn. Refusals, in this order: 11 (`out` shorter than BENCH_SMALL_SHEET_BYTES, whatever is handed in), 22,
 * 23 (the row is 0 always).
 */
bench_next_answer bench_next(const uint8_t *sheet, size_t sheet_bytes, uint8_t *out, size_t out_bytes);

/*
 * Evaluates a sheet with its kinds line on a set within the lent rounds; a round is one entry into a loop's body. Writes sixteen values to `out`, E past the
 * width; bytes of `out` past 80 are left alone. Refusals, in this order: 11 (`out` shorter than 80 bytes), 1 to 9, 17, 18, 10, 12, 36.
 */
bench_evaluate_answer bench_evaluate(const uint8_t *sheet, size_t sheet_bytes, const uint8_t *kinds, size_t kinds_bytes, const uint8_t *set,
                                     size_t set_bytes, uint32_t rounds, uint8_t *out, size_t out_bytes);

/*
 * Starts an empty machine for a sheet with its kinds line, with links that hold `capacity` tokens, in `memory` (any contents). Refusals, in this order: 11
 * (shorter than BENCH_MACHINE_BYTES of the capacity asked, or of 1 where that is outside 1..16), 14, 1 to 9, 17, 18, 10.
 */
bench_start_answer bench_start(const uint8_t *sheet, size_t sheet_bytes, const uint8_t *kinds, size_t kinds_bytes, uint32_t capacity,
                               uint8_t *memory, size_t memory_bytes, bench_tally *tally);

/*
 * The calls on a machine. Each needs BENCH_MACHINE_BYTES of the stored capacity (of 1 where the stored one is outside 1..16), looks first
 * at that (11) and at all that is stored (31), and then gives its own refusals.
 */

/*
 * Gives one value to each input link, and a trigger where the graph has constants: those of constant rows, and those by which a loop says
 * whether it goes on. Refusals, in this order: 11, 31, 12, 32, 33.
 */
bench_answer bench_push(uint8_t *memory, size_t memory_bytes, const uint8_t *set, size_t set_bytes, bench_tally *tally);

/*
 * Pushes `number` sets that lie behind each other, each of BENCH_VALUE_BYTES for each input: memory and refusal are those of calls of bench_push,
 * one a set, up to the first that is refused. The count says how many went in, also beside a refusal. A set not wholly lent is 12. Bytes past the
 * last set are left aside, where bench_push gives 12. Refusals, in this order: for each set 11, 31, 12, 32, 33; for a tray of none 11, 31.
 */
bench_answer bench_push_tray(uint8_t *memory, size_t memory_bytes, const uint8_t *sets, size_t sets_bytes, uint32_t number,
                             bench_tally *tally);

/* Fires one operator, counted from 0. Refusals, in this order: 11, 31, 34. */
bench_answer bench_fire(uint8_t *memory, size_t memory_bytes, uint32_t operator_number, bench_tally *tally);

/*
 * Fires the least-numbered able operator again and again, up to `firings` times, and counts. Refusals, in this order: 11, 31; 36 where
 * something can still fire after the lent firings, which are kept.
 */
bench_answer bench_run(uint8_t *memory, size_t memory_bytes, uint32_t firings, bench_tally *tally);

/*
 * Runs by rounds, up to `rounds` of them: in a round each operator in turn, from 0 on, that is able at its turn fires once. So a set that loops
 * without end holds up none before it. A round in which nothing fires ends the call and is not counted. Refusals, in this order: 11, 31; 36
 * where something can still fire after the lent rounds, which are kept.
 */
bench_rounds_answer bench_run_rounds(uint8_t *memory, size_t memory_bytes, uint32_t rounds, bench_tally *tally);

/*
 * Takes the result set of the oldest set untaken: sixteen values into `out`, E past the width, which is the answer's count; bytes of
 * `out` past 80 are left alone. Refusals, in this order: 11 (also where `out` is shorter than 80 bytes), 31, 35.
 */
bench_answer bench_take(uint8_t *memory, size_t memory_bytes, uint8_t *out, size_t out_bytes, bench_tally *tally);

/*
 * Checks the log of another bench: starts an empty machine for a sheet with its kinds line, with links that hold `capacity` tokens, in `memory`
 * (any contents), and makes the call that each line names. It accepts exactly the logs of which every line is accepted, in whatever order they stand.
 *
 * A line is two fields of six characters, as in a sheet, and a line feed: 1 and a set's number for bench_push, 2 and an operator's for bench_fire, or
 * 3 and 0 for bench_take. Operators count from 0, as everywhere. Sets count from 1: `sets` has `number` of them behind each other, as in a tray, and
 * bytes past the last are left aside. A log has up to BENCH_LOG_MOST_LINES lines; one of no bytes has none.
 *
 * Each take writes a result set of BENCH_RESULT_BYTES to `out`, one behind the other. The machine that the lines lead to stays in `memory`, for the
 * calls above.
 *
 * Refusals, in this order: 11 (`memory` shorter than BENCH_MACHINE_BYTES of the capacity asked, or of 1 where that is outside 1..16; `out` shorter
 * than BENCH_LOG_RESULTS_BYTES of the log's bytes), 14, 1 to 9, 17, 18, 10, 12 (one of the sets, whether a line names it or not; not wholly lent
 * too), 15 over the whole log, 16. The row of 15 and of 16 is the lowest such line.
 */
bench_log_answer bench_check_log(const uint8_t *sheet, size_t sheet_bytes, const uint8_t *kinds, size_t kinds_bytes, uint32_t capacity,
                                 const uint8_t *sets, size_t sets_bytes, uint32_t number, const uint8_t *log, size_t log_bytes,
                                 uint8_t *memory, size_t memory_bytes, uint8_t *out, size_t out_bytes);

/*
 * The machine with tags, for sheets without for: quick sets overtake slow ones. A set that is pushed gets the lowest free tag, 0 to 15, and its tokens carry
 * it; a link holds one token of each tag. A tag is free again as soon as, and not before, its result is taken and no token with it is left on any link. Where
 * only its own calls wrote since the start, each taken result is that of the set last pushed under its tag, and when nothing can fire every tag is free or has
 * its whole result.
 *
 * Starts an empty machine for a sheet with its kinds line in `memory` (any contents). Refusals, in this order: 11 (shorter than BENCH_TAGGED_BYTES), 1 to 9,
 * 17, 18, 10, 19 (row 0).
 */
bench_start_answer bench_tagged_start(const uint8_t *sheet, size_t sheet_bytes, const uint8_t *kinds, size_t kinds_bytes, uint8_t *memory,
                                      size_t memory_bytes);

/*
 * The calls on a machine with tags. Each needs BENCH_TAGGED_BYTES, whatever is stored, looks first at that (11) and at all that is stored (31), and then gives
 * its own refusals. A first machine's memory gets 11 or 31 here, and so does the memory of a machine with tags from the first machine's calls on memory that
 * was started; a start takes any memory, and makes it its own.
 */

/*
 * Gives one value to each input link, and a trigger where the graph has constants, under the lowest free tag, which is the answer's count. Refusals, in this
 * order: 11, 31, 12, 37.
 */
bench_answer bench_tagged_push(uint8_t *memory, size_t memory_bytes, const uint8_t *set, size_t set_bytes);

/* Fires one operator, counted from 0, on the tokens of one tag. Refusals, in this order: 11, 31, 34 (also where the tag is above 15). */
bench_answer bench_tagged_fire(uint8_t *memory, size_t memory_bytes, uint32_t operator_number, uint32_t tag);

/*
 * Fires the least-numbered able operator under its lowest able tag again and again, up to `firings` times, and counts. Refusals, in this order: 11, 31; 36
 * where something can still fire after the lent firings, which are kept.
 */
bench_answer bench_tagged_run(uint8_t *memory, size_t memory_bytes, uint32_t firings);

/*
 * Takes the result set of the set last pushed under a tag: sixteen values into `out`, E past the width, which is the answer's count; bytes of `out` past 80 are
 * left alone. Refusals, in this order: 11 (also where `out` is shorter than 80 bytes), 31, 38 (also where the tag is above 15).
 */
bench_answer bench_tagged_take(uint8_t *memory, size_t memory_bytes, uint32_t tag, uint8_t *out, size_t out_bytes);

#ifdef __cplusplus
}
#endif

#endif
