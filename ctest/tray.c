/*
 * Trays through the C interface: each refusal in its order with the number of sets that went in, every byte afterwards, and beside each tray the same sets
 * by bench_push, one by one, on a copy of the memory.
 */
#include "machine.h"

/* A set of the sheet `pair`, which hands it out as it is. */
enum { SET_BYTES = 2 * BENCH_VALUE_BYTES, SETS = 20 };

/* "7": no inputs, and a constant that wants the trigger. */
static const struct sheet seven = {"     2     7     0     0     0\n", "\n"};

/* Twenty sets that differ, of whole numbers and truths. */
static uint8_t sets[SETS * SET_BYTES];

static void fill_sets(void) {
    for (uint8_t i = 0; i < SETS; i++) {
        const uint8_t set[] = {BENCH_WHOLE, i, 1, 0, 0, BENCH_TRUTH, i % 2, 0, 0, 0};
        memcpy(sets + SET_BYTES * (size_t)i, set, sizeof set);
    }
}

/* The same sets by single pushes, until one is refused; of none 11 and 31 alone, which a firing of no operator tells. */
static bench_answer one_by_one(uint8_t *mem, const uint8_t *from, size_t bytes, uint32_t number) {
    bench_answer answer = bench_fire(mem, length, UINT32_MAX, &tally);
    if (answer.refusal != BENCH_NOT_ABLE) {
        return answer;
    }
    size_t set = BENCH_VALUE_BYTES * (size_t)mem[INPUTS_AT];
    uint32_t count = 0;
    answer.refusal = BENCH_ACCEPTED;
    while (count < number) {
        size_t lent = bytes < set ? bytes : set;
        answer = bench_push(mem, length, from, lent, &tally);
        if (answer.refusal != BENCH_ACCEPTED) {
            break;
        }
        bytes -= lent;
        from += lent;
        count++;
    }
    answer.count = count;
    return answer;
}

/* A tray of the first so many bytes of `from`, lent at their exact length. */
static void tray(const char *what, const uint8_t *from, size_t bytes, uint32_t number, uint32_t refusal, uint32_t count) {
    uint8_t *copy = lend(memory, length), *lent = lend(from, bytes);
    bench_answer answer = bench_push_tray(memory, length, lent, bytes, number, &tally);
    expect(what, answer.refusal, refusal);
    expect(what, answer.count, count);
    bench_answer single = one_by_one(copy, lent, bytes, number);
    expect(what, single.refusal, refusal);
    expect(what, single.count, count);
    expect(what, memcmp(memory, copy, length) == 0, 1);
    expect(what, bytes == 0 || memcmp(lent, from, bytes) == 0, 1);
    free(copy);
    free(lent);
}

/* Like that, and no byte of the memory changes. */
static void tray_leaves_all(const char *what, const uint8_t *from, size_t bytes, uint32_t number, uint32_t refusal) {
    uint8_t *before = lend(memory, length);
    tray(what, from, bytes, number, refusal, 0);
    expect(what, memcmp(memory, before, length) == 0, 1);
    free(before);
}

/* The results to take are those of the sets from `first` on, so many, in their order, and no more. */
static void taken(const char *what, size_t first, size_t count) {
    uint8_t out[BENCH_RESULT_BYTES];
    for (size_t i = first; i < first + count; i++) {
        expect(what, bench_take(memory, length, out, sizeof out, &tally).refusal, BENCH_ACCEPTED);
        expect(what, memcmp(out, sets + SET_BYTES * i, SET_BYTES) == 0, 1);
    }
    expect(what, bench_take(memory, length, out, sizeof out, &tally).refusal, BENCH_NO_RESULT);
}

/* More sets than go in: 33 at a small capacity, 32 after sixteen; and in two trays. */
static void capacities(void) {
    static const uint32_t numbers[] = {SETS, UINT32_MAX};
    for (size_t i = 0; i < sizeof numbers / sizeof numbers[0]; i++) {
        begin(&pair, 1);
        tray("capacity 1", sets, sizeof sets, numbers[i], BENCH_FULL, 1);
        taken("capacity 1", 0, 1);
        begin(&pair, 2);
        tray("capacity 2", sets, sizeof sets, numbers[i], BENCH_FULL, 2);
        taken("capacity 2", 0, 2);
        begin(&pair, MOST_CAPACITY);
        tray("capacity 16", sets, sizeof sets, numbers[i], BENCH_UNTAKEN, MOST_UNTAKEN);
        taken("capacity 16", 0, MOST_UNTAKEN);
    }
    begin(&pair, MOST_CAPACITY);
    tray("sixteen", sets, sizeof sets, MOST_UNTAKEN, BENCH_ACCEPTED, MOST_UNTAKEN);
    tray_leaves_all("a seventeenth", sets, SET_BYTES, 1, BENCH_UNTAKEN);
    taken("sixteen", 0, MOST_UNTAKEN);
    tray("three", sets, sizeof sets, 3, BENCH_ACCEPTED, 3);
    tray("thirteen more", sets + 3 * SET_BYTES, sizeof sets - 3 * SET_BYTES, SETS - 3, BENCH_UNTAKEN, MOST_UNTAKEN - 3);
    taken("three and thirteen", 0, MOST_UNTAKEN);
}

/* Every length of what is lent for three sets: one not wholly lent is 12, and bytes past the last are left aside. */
static void lengths(void) {
    enum { NUMBER = 3, MOST = (NUMBER + 1) * SET_BYTES };
    uint8_t lent[MOST];
    memset(lent, 0xff, sizeof lent);
    memcpy(lent, sets, NUMBER * SET_BYTES);
    for (size_t bytes = 0; bytes <= MOST; bytes++) {
        uint32_t whole = (uint32_t)(bytes / SET_BYTES), count = whole < NUMBER ? whole : NUMBER;
        begin(&pair, MOST_CAPACITY);
        tray("a length", lent, bytes, NUMBER, count < NUMBER ? BENCH_SET : BENCH_ACCEPTED, count);
        taken("a length", 0, count);
    }
    begin(&pair, MOST_CAPACITY);
    tray("the largest number", sets, 2 * SET_BYTES, UINT32_MAX, BENCH_SET, 2);
    taken("the largest number", 0, 2);
}

/* A bad value at each place of five sets: the sets before went in, 12 comes before 32 and 33. */
static void bad_values(void) {
    enum { NUMBER = 5 };
    for (uint32_t at = 0; at < 2 * NUMBER; at++) {
        uint8_t lent[NUMBER * SET_BYTES];
        memcpy(lent, sets, sizeof lent);
        memcpy(lent + BENCH_VALUE_BYTES * (size_t)at, no_reasons[at % 4], BENCH_VALUE_BYTES);
        uint32_t count = at / 2;
        begin(&pair, MOST_CAPACITY);
        tray("a bad value", lent, sizeof lent, NUMBER, BENCH_SET, count);
        taken("a bad value", 0, count);
        begin(&pair, MOST_CAPACITY);
        memory[UNTAKEN_AT] = (uint8_t)(MOST_UNTAKEN - count);
        tray("12 before 32", lent, sizeof lent, NUMBER, BENCH_SET, count);
        tray("32", sets, sizeof sets, 1, BENCH_UNTAKEN, 0);
        if (count > 0) {
            begin(&pair, count);
            tray("12 before 33", lent, sizeof lent, NUMBER, BENCH_SET, count);
            tray("33", sets, sizeof sets, 1, BENCH_FULL, 0);
            begin(&pair, count);
            memory[UNTAKEN_AT] = (uint8_t)(MOST_UNTAKEN - count);
            tray("32 before 33", sets, sizeof sets, NUMBER + 1, BENCH_UNTAKEN, count);
        }
    }
}

/* A tray of none: 11 and 31 only, whatever is lent beside it and however full the machine is. */
static void none(void) {
    begin(&pair, 1);
    tray_leaves_all("none", NULL, 0, 0, BENCH_ACCEPTED);
    tray_leaves_all("none, with bytes behind it", no_reasons[0], BENCH_VALUE_BYTES, 0, BENCH_ACCEPTED);
    tray("one", sets, sizeof sets, 1, BENCH_ACCEPTED, 1);
    tray_leaves_all("none, where links are full", sets, sizeof sets, 0, BENCH_ACCEPTED);
    memory[UNTAKEN_AT] = MOST_UNTAKEN;
    tray_leaves_all("none, with sixteen untaken", sets, sizeof sets, 0, BENCH_ACCEPTED);
}

/* 11 before 31 before all else, with any number; the count is 0. */
static void memories(void) {
    static const uint32_t numbers[] = {0, 1, 2, SETS, UINT32_MAX};
    for (size_t i = 0; i < sizeof numbers / sizeof numbers[0]; i++) {
        begin(&pair, 2);
        memory[UNTAKEN_AT] = MOST_UNTAKEN + 1;
        tray_leaves_all("31", sets, sizeof sets, numbers[i], BENCH_ALTERED);
        tray_leaves_all("31 before 12", no_reasons[0], BENCH_VALUE_BYTES, numbers[i], BENCH_ALTERED);
        length--;
        tray_leaves_all("11 before 31", sets, sizeof sets, numbers[i], BENCH_MEMORY);
        length = 0;
        tray_leaves_all("no memory", sets, sizeof sets, numbers[i], BENCH_MEMORY);
    }
    /* A stored number of inputs that is another: a set is as long as it asks. */
    static const uint8_t wholes[][BENCH_VALUE_BYTES] = {WHOLE(1), WHOLE(2)};
    begin(&pair, 2);
    memory[INPUTS_AT] = 1;
    tray("one input", wholes[0], sizeof wholes, 2, BENCH_ACCEPTED, 2);
}

/* Sets of no bytes go in until the trigger's link is full, sixteen are untaken, or as many as asked. */
static void no_inputs(void) {
    for (uint32_t capacity = 1; capacity <= MOST_CAPACITY; capacity++) {
        begin(&seven, capacity);
        tray("no inputs", NULL, 0, UINT32_MAX, capacity < MOST_UNTAKEN ? BENCH_FULL : BENCH_UNTAKEN, capacity);
    }
    begin(&seven, MOST_CAPACITY);
    tray("no inputs, three", NULL, 0, 3, BENCH_ACCEPTED, 3);
    tray("no inputs, bytes left aside", no_reasons[0], BENCH_VALUE_BYTES, 2, BENCH_ACCEPTED, 2);
    expect("five triggers", bench_run(memory, length, 100, &tally).count, 5);
}

/* A tray of readings through a loop: each result is its own set's, also of sets before a refused one. */
static void verdicts(void) {
    static const uint8_t lent[][BENCH_VALUE_BYTES] = {WHOLE(1), WHOLE(5), Z_VALUE, WHOLE(13), {0, 0, 0, 0, 0}, WHOLE(3)};
    static const uint8_t results[][BENCH_VALUE_BYTES] = {WHOLE(1), WHOLE(120), E_VALUE, V_VALUE};
    uint8_t out[BENCH_RESULT_BYTES];
    begin(&factorial, MOST_CAPACITY);
    tray("factorials", lent[0], sizeof lent, 6, BENCH_SET, 4);
    expect("factorials", bench_run(memory, length, 100000, &tally).refusal, BENCH_ACCEPTED);
    for (size_t i = 0; i < sizeof results / sizeof results[0]; i++) {
        expect("factorials", bench_take(memory, length, out, sizeof out, &tally).refusal, BENCH_ACCEPTED);
        expect("factorials", memcmp(out, results[i], BENCH_VALUE_BYTES) == 0, 1);
    }
    expect("factorials", bench_take(memory, length, out, sizeof out, &tally).refusal, BENCH_NO_RESULT);
}

int main(void) {
    fill_sets();
    capacities();
    lengths();
    bad_values();
    none();
    memories();
    no_inputs();
    verdicts();
    free(memory);
    return tell();
}
