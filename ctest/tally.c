/*
 * The tally through the C interface: what each call adds to it, accepted and with each of its refusals; where its numbers stop; the words around the record; and
 * that the firings it shows at the end do not depend on the order of calls or on the capacity (document 02, Job 10).
 */
#include <stddef.h>

#include "machine.h"
#include "refused.h"

/* Three words without a gap. */
_Static_assert(sizeof(bench_tally) == 12 && offsetof(bench_tally, takes) == 4 && offsetof(bench_tally, refused) == 8, "layout");

enum { GUARDS = 4, GUARD = 0x5a5a5a5a };

/* A record between words that no call may touch, and what it held at the last look. */
static struct {
    uint32_t before[GUARDS];
    bench_tally tally;
    uint32_t behind[GUARDS];
} guarded;
static bench_tally *const record = &guarded.tally;
static bench_tally held;

/* Each number from its start, from its middle and from about its end, alone and together. */
static const bench_tally records[] = {
    {0, 0, 0},
    {1, 20, 300},
    {UINT32_MAX - 1, 0, 0},
    {0, UINT32_MAX - 1, 0},
    {0, 0, UINT32_MAX - 1},
    {UINT32_MAX, 1, 2},
    {1, UINT32_MAX, 2},
    {1, 2, UINT32_MAX},
    {UINT32_MAX - 10, UINT32_MAX - 2, UINT32_MAX - 3},
    {UINT32_MAX, UINT32_MAX, UINT32_MAX},
    {0x7fffffff, 0x80000000, 0xffff},
};

static void put_record(bench_tally value) {
    for (size_t i = 0; i < GUARDS; i++) {
        guarded.before[i] = GUARD;
        guarded.behind[i] = GUARD;
    }
    *record = value;
    held = value;
}

static void expect_record(const char *what, bench_tally wanted) {
    expect(what, record->firings, wanted.firings);
    expect(what, record->takes, wanted.takes);
    expect(what, record->refused, wanted.refused);
    for (size_t i = 0; i < GUARDS; i++) {
        expect(what, guarded.before[i] == GUARD && guarded.behind[i] == GUARD, 1);
    }
    held = *record;
}

/* "Each number stops at 4,294,967,295." */
static uint32_t stopping(uint32_t from, uint64_t more) {
    return more > UINT32_MAX - from ? UINT32_MAX : from + (uint32_t)more;
}

/* The numbers have grown by these since the last look. */
static void grown(const char *what, uint64_t firings, uint32_t takes, uint32_t refused) {
    expect_record(what, (bench_tally){stopping(held.firings, firings), stopping(held.takes, takes), stopping(held.refused, refused)});
}

/* Sets for `pair`: good ones, and one with a value of another kind. */
static const uint8_t good[][BENCH_VALUE_BYTES] = {WHOLE(5), TRUE_VALUE, WHOLE(6), FALSE_VALUE, WHOLE(7), TRUE_VALUE};
static const uint8_t other_kind[][BENCH_VALUE_BYTES] = {WHOLE(5), WHOLE(1)};
enum { SET_BYTES = 2 * BENCH_VALUE_BYTES };

static void push(const char *what, const void *set, size_t bytes, uint32_t refusal) {
    expect(what, bench_push(memory, length, set, bytes, record).refusal, refusal);
    grown(what, 0, 0, refusal != BENCH_ACCEPTED);
}

static void pushes(void) {
    begin(&pair, 1);
    push("a push", good, SET_BYTES, BENCH_ACCEPTED);
    push("33", good, SET_BYTES, BENCH_FULL);
    push("12, too short", good, SET_BYTES - 1, BENCH_SET);
    push("12, none", NULL, 0, BENCH_SET);
    push("12, another kind", other_kind, SET_BYTES, BENCH_SET);
    memory[UNTAKEN_AT] = MOST_UNTAKEN;
    push("32", good, SET_BYTES, BENCH_UNTAKEN);
    memory[UNTAKEN_AT] = MOST_UNTAKEN + 1;
    push("31", good, SET_BYTES, BENCH_ALTERED);
    length--;
    push("11", good, SET_BYTES, BENCH_MEMORY);
    length = 0;
    push("no memory", good, SET_BYTES, BENCH_MEMORY);
}

/* A tray that is refused counts one, however many went in; of none too, with 11 and 31. */
static void tray(const char *what, const void *sets, size_t bytes, uint32_t number, uint32_t refusal, uint32_t count) {
    bench_answer answer = bench_push_tray(memory, length, sets, bytes, number, record);
    expect(what, answer.refusal, refusal);
    expect(what, answer.count, count);
    grown(what, 0, 0, refusal != BENCH_ACCEPTED);
}

static void trays(void) {
    begin(&pair, 2);
    tray("none", NULL, 0, 0, BENCH_ACCEPTED, 0);
    tray("33 behind two", good, sizeof good, 3, BENCH_FULL, 2);
    tray("33", good, sizeof good, UINT32_MAX, BENCH_FULL, 0);
    tray("none, where links are full", good, sizeof good, 0, BENCH_ACCEPTED, 0);
    begin(&pair, MOST_CAPACITY);
    tray("three", good, sizeof good, 3, BENCH_ACCEPTED, 3);
    tray("12 behind two", good, sizeof good - 1, 3, BENCH_SET, 2);
    tray("12", other_kind, sizeof other_kind, 1, BENCH_SET, 0);
    memory[UNTAKEN_AT] = MOST_UNTAKEN - 1;
    tray("32 behind one", good, sizeof good, 3, BENCH_UNTAKEN, 1);
    for (uint32_t number = 0; number < 3; number++) {
        begin(&pair, 2);
        memory[UNTAKEN_AT] = MOST_UNTAKEN + 1;
        tray("31", good, sizeof good, number, BENCH_ALTERED, 0);
        length--;
        tray("11", good, sizeof good, number, BENCH_MEMORY, 0);
        length = 0;
        tray("no memory", good, sizeof good, number, BENCH_MEMORY, 0);
    }
}

/* Factorial with a set pushed: something can fire. 1,000 makes many thousand firings. */
static const uint8_t five[] = WHOLE(5), thousand[] = {BENCH_WHOLE, 0xe8, 3, 0, 0};

static void load(const uint8_t *set) {
    begin(&factorial, 2);
    expect("push", bench_push(memory, length, set, BENCH_VALUE_BYTES, &tally).refusal, BENCH_ACCEPTED);
}

static void fire(const char *what, uint32_t operator, uint32_t refusal) {
    expect(what, bench_fire(memory, length, operator, record).refusal, refusal);
    grown(what, refusal == BENCH_ACCEPTED, 0, 0);
}

/* Each operator once: those that are able count, the others do not. */
static void fires(void) {
    load(five);
    unsigned fired = 0;
    for (uint32_t i = 0; i < operators_of(memory); i++) {
        uint8_t *copy = lend(memory, length);
        uint32_t refusal = bench_fire(copy, length, i, &tally).refusal;
        free(copy);
        fire("each operator", i, refusal);
        fired += refusal == BENCH_ACCEPTED;
    }
    expect("able and not", fired > 1 && fired < operators_of(memory), 1);
    fire("34, absent", operators_of(memory), BENCH_NOT_ABLE);
    fire("34, the largest number", UINT32_MAX, BENCH_NOT_ABLE);
    memory[UNTAKEN_AT] = MOST_UNTAKEN + 1;
    fire("31", 0, BENCH_ALTERED);
    length--;
    fire("11", 0, BENCH_MEMORY);
    length = 0;
    fire("no memory", 0, BENCH_MEMORY);
}

/* A run's answer, of either sort: what it says of firings is what is counted, also beside 36. */
enum sort { RUN, ROUNDS, SORTS };

static uint64_t run(const char *what, enum sort sort, uint32_t lent, uint32_t refusal) {
    uint64_t firings;
    if (sort == RUN) {
        bench_answer answer = bench_run(memory, length, lent, record);
        expect(what, answer.refusal, refusal);
        firings = answer.count;
    } else {
        bench_rounds_answer answer = bench_run_rounds(memory, length, lent, record);
        expect(what, answer.refusal, refusal);
        firings = answer.firings;
    }
    grown(what, firings, 0, 0);
    return firings;
}

static void runs(enum sort sort) {
    load(five);
    expect("none lent", run("none lent", sort, 0, BENCH_UNFINISHED) == 0, 1);
    expect("one lent", run("one lent", sort, 1, BENCH_UNFINISHED) > 0, 1);
    expect("a few lent", run("a few lent", sort, 3, BENCH_UNFINISHED) >= 3, 1);
    expect("to the end", run("to the end", sort, UINT32_MAX, BENCH_ACCEPTED) > 0, 1);
    expect("nothing can fire", run("nothing can fire", sort, UINT32_MAX, BENCH_ACCEPTED) == 0, 1);
    load(thousand);
    expect("much", run("much", sort, 100, BENCH_UNFINISHED) >= 100, 1);
    expect("much more", run("much more", sort, UINT32_MAX, BENCH_ACCEPTED) > 10000, 1);
    memory[UNTAKEN_AT] = MOST_UNTAKEN + 1;
    expect("31", run("31", sort, 7, BENCH_ALTERED) == 0, 1);
    length--;
    expect("11", run("11", sort, 7, BENCH_MEMORY) == 0, 1);
    length = 0;
    expect("no memory", run("no memory", sort, 7, BENCH_MEMORY) == 0, 1);
}

static void take(const char *what, size_t room, uint32_t refusal) {
    uint8_t out[BENCH_RESULT_BYTES];
    expect(what, bench_take(memory, length, out, room, record).refusal, refusal);
    grown(what, 0, refusal == BENCH_ACCEPTED, 0);
}

static void takes(void) {
    begin(&pair, 2);
    take("35, none untaken", BENCH_RESULT_BYTES, BENCH_NO_RESULT);
    tray("two", good, sizeof good, 2, BENCH_ACCEPTED, 2);
    take("11, no room", BENCH_RESULT_BYTES - 1, BENCH_MEMORY);
    take("the first", BENCH_RESULT_BYTES, BENCH_ACCEPTED);
    take("the second", BENCH_RESULT_BYTES, BENCH_ACCEPTED);
    take("35, all taken", BENCH_RESULT_BYTES, BENCH_NO_RESULT);
    load(five);
    take("35, not ready", BENCH_RESULT_BYTES, BENCH_NO_RESULT);
    memory[UNTAKEN_AT] = MOST_UNTAKEN + 1;
    take("31", BENCH_RESULT_BYTES, BENCH_ALTERED);
    length--;
    take("11", BENCH_RESULT_BYTES, BENCH_MEMORY);
    length = 0;
    take("no memory", BENCH_RESULT_BYTES, BENCH_MEMORY);
}

/* A refused start leaves the record, an accepted one sets it to zeros, whatever stood there. */
static void start(const char *what, const char *rows, size_t rows_bytes, const char *kinds, uint32_t capacity, uint32_t refusal) {
    const uint8_t *sheet = (const uint8_t *)rows, *line = (const uint8_t *)kinds;
    expect(what, bench_start(sheet, rows_bytes, line, strlen(kinds), capacity, memory, length, record).refusal, refusal);
    expect_record(what, refusal == BENCH_ACCEPTED ? (bench_tally){0, 0, 0} : held);
}

static void starts(void) {
    char sheet[(MOST_ROWS + 1) * ROW_BYTES];
    const char *rows = lesser_of_two.rows, *kinds = lesser_of_two.kinds;
    size_t bytes = strlen(rows);
    begin(&pair, 1);
    for (size_t i = 0; i < sizeof refused_sheets / sizeof refused_sheets[0]; i++) {
        const char *refused = refused_sheets[i].rows;
        start(refused_sheets[i].what, refused, strlen(refused), kinds, 1, refused_sheets[i].refusal);
    }
    start("2", sheet, too_many_rows(sheet), kinds, 1, BENCH_ROWS);
    start("10", sheet, too_many_operators(sheet), too_many_operators_kinds, 1, BENCH_OPERATORS);
    start("17", rows, bytes, "W\n", 1, BENCH_KINDS_LINE);
    start("18", rows, bytes, "WT\n", 1, BENCH_KINDS);
    start("14", rows, bytes, kinds, MOST_CAPACITY + 1, BENCH_CAPACITY);
    start("11, of 2", rows, bytes, kinds, 2, BENCH_MEMORY);
    start("accepted", rows, bytes, kinds, 1, BENCH_ACCEPTED);
    start("accepted again", rows, bytes, kinds, 1, BENCH_ACCEPTED);
}

/* Runs that bring the number of firings just before its end, just to it and one and many past it. */
static void ends(enum sort sort) {
    load(five);
    uint8_t *before = lend(memory, length);
    put_record((bench_tally){0, 0, 0});
    uint32_t all = (uint32_t)run("all", sort, UINT32_MAX, BENCH_ACCEPTED);
    const uint32_t left[] = {all + 1, all, all - 1, all / 2, 1, 0};
    for (size_t i = 0; i < sizeof left / sizeof left[0]; i++) {
        memcpy(memory, before, length);
        put_record((bench_tally){UINT32_MAX - left[i], 4, 5});
        expect("the same firings", (uint32_t)run("the same firings", sort, UINT32_MAX, BENCH_ACCEPTED), all);
        expect("one short of its end, or there", UINT32_MAX - record->firings, i == 0);
    }
    free(before);
}

/* A record that was changed between two calls is taken as it stands, and one that is not lent stays. */
static void changed(void) {
    bench_tally other = {70, 80, UINT32_MAX - 1};
    load(five);
    put_record((bench_tally){1, 2, 3});
    push("with one record", five, sizeof five - 1, BENCH_SET);
    for (uint32_t i = 0; i < 3; i++) {
        expect("with another", bench_push(memory, length, five, 0, &other).refusal, BENCH_SET);
        expect("with another", other.firings == 70 && other.takes == 80 && other.refused == UINT32_MAX, 1);
    }
    expect_record("the first stays", held);
    put_record((bench_tally){UINT32_MAX - 5, UINT32_MAX - 1, 9});
    run("changed between", RUN, UINT32_MAX, BENCH_ACCEPTED);
    take("changed between", BENCH_RESULT_BYTES, BENCH_ACCEPTED);
    expect_record("changed between", (bench_tally){UINT32_MAX, UINT32_MAX, 9});
    put_record((bench_tally){0, 0, 0});
    push("changed back", five, sizeof five, BENCH_ACCEPTED);
    run("changed back", ROUNDS, 1, BENCH_UNFINISHED);
    expect("changed back", record->firings > 0 && record->firings < operators_of(memory), 1);
}

/* The orders in which sets are worked: by runs, by rounds, and by single firings, operators rising or falling. */
enum order { BY_RUNS, BY_ROUNDS, RISING, FALLING, ORDERS };

/* More than any of these takes; a machine that does not end fails here. */
enum { MOST_TURNS = 1000000 };

/* How often each operator has fired, by single firings; all together, and the refused pushes. */
struct done {
    uint32_t of[MOST_OPERATORS];
    uint32_t firings, refused;
};

static void fire_counted(struct done *done, uint32_t operator) {
    if (bench_fire(memory, length, operator, record).refusal == BENCH_ACCEPTED) {
        done->of[operator]++;
        done->firings++;
    }
}

/* A few firings. */
static void some(enum order order, struct done *done) {
    enum { FIRINGS = 11, SOME_ROUNDS = 2 };
    uint32_t operators = operators_of(memory);
    if (order == BY_RUNS) {
        done->firings += bench_run(memory, length, FIRINGS, record).count;
    } else if (order == BY_ROUNDS) {
        done->firings += (uint32_t)bench_run_rounds(memory, length, SOME_ROUNDS, record).firings;
    } else {
        for (uint32_t i = 0; i < operators; i++) {
            fire_counted(done, order == RISING ? i : operators - 1 - i);
        }
    }
}

/* Works all sets until each is taken and nothing can fire; the record has counted it all since the start. */
static void work(struct done *done, const struct sheet *sheet, const uint8_t *sets, uint32_t number, enum order order, uint32_t capacity) {
    uint8_t out[BENCH_RESULT_BYTES];
    memset(done, 0, sizeof *done);
    begin(sheet, capacity);
    size_t set = BENCH_VALUE_BYTES * (size_t)memory[INPUTS_AT];
    put_record((bench_tally){UINT32_MAX, 1, 2});
    start("start", sheet->rows, strlen(sheet->rows), sheet->kinds, capacity, BENCH_ACCEPTED);
    uint32_t pushed = 0, taken = 0, turns = 0;
    while ((taken < number || bench_run(memory, length, 0, record).refusal == BENCH_UNFINISHED) &&
           turns++ < MOST_TURNS) {
        while (pushed < number && bench_push(memory, length, sets + set * pushed, set, record).refusal == BENCH_ACCEPTED) {
            pushed++;
        }
        done->refused += pushed < number;
        some(order, done);
        while (bench_take(memory, length, out, sizeof out, record).refusal == BENCH_ACCEPTED) {
            taken++;
        }
    }
    expect("ends", turns <= MOST_TURNS, 1);
    expect_record("all since the start", (bench_tally){done->firings, number, done->refused});
}

/* "when nothing can fire and every pushed set is taken, each operator has fired a number of times that depends on the sheet and the sets alone" */
static void every_order(const struct sheet *sheet, const uint8_t *sets, uint32_t number) {
    static const uint32_t capacities[] = {1, 2, MOST_CAPACITY};
    static struct done first, done;
    uint32_t refused = 0;
    work(&first, sheet, sets, number, RISING, 1);
    for (size_t i = 0; i < sizeof capacities / sizeof capacities[0]; i++) {
        for (enum order order = BY_RUNS; order < ORDERS; order++) {
            work(&done, sheet, sets, number, order, capacities[i]);
            expect("firings in every order", done.firings, first.firings);
            if (order == RISING || order == FALLING) {
                expect("each operator's", memcmp(done.of, first.of, sizeof done.of) == 0, 1);
            }
            refused += done.refused;
        }
    }
    expect("some fire, and some pushes are refused", first.firings > 0 && refused > 0, 1);
}

int main(void) {
    static const uint8_t readings[][BENCH_VALUE_BYTES] = {WHOLE(3), WHOLE(5), WHOLE(7), WHOLE(7), MINUS_ONE, LEAST, E_VALUE, WHOLE(2), WHOLE(2), WHOLE(1)};
    static const uint8_t numbers[][BENCH_VALUE_BYTES] = {WHOLE(5), WHOLE(0), Z_VALUE, WHOLE(13), WHOLE(3), MINUS_ONE};
    for (size_t i = 0; i < sizeof records / sizeof records[0]; i++) {
        put_record(records[i]);
        pushes();
        put_record(records[i]);
        trays();
        put_record(records[i]);
        fires();
        for (enum sort sort = RUN; sort < SORTS; sort++) {
            put_record(records[i]);
            runs(sort);
        }
        put_record(records[i]);
        takes();
        put_record(records[i]);
        starts();
    }
    ends(RUN);
    ends(ROUNDS);
    changed();
    every_order(&lesser_of_two, readings[0], sizeof readings / sizeof readings[0] / 2);
    every_order(&factorial, numbers[0], sizeof numbers / sizeof numbers[0]);
    free(memory);
    return tell();
}
