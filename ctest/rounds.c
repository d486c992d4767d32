/*
 * Runs by rounds through the C interface: beside each the same rounds by bench_fire, operators rising, on a copy of the memory; each refusal in its order,
 * every byte afterwards; and an older verdict that a looping set does not hold up (document 02, Job 7).
 */
#include <stddef.h>

#include "machine.h"

/* Refusal and rounds share the first eight bytes; the firings are the other eight. */
_Static_assert(sizeof(bench_rounds_answer) == 16 && offsetof(bench_rounds_answer, rounds) == 4 && offsetof(bench_rounds_answer, firings) == 8, "layout");

/* "-(-(for x2 = x1 do if x2 then iter x2 else x0))": loops without end where x1 is true. Behind the loop are operators of higher numbers. */
static const struct sheet loop = {
    LOOP_ROWS
    "     5    11     7     0     0\n"
    "     5    11     8     0     0\n",
    "WT\n"};
static const uint8_t ending[][BENCH_VALUE_BYTES] = {WHOLE(5), FALSE_VALUE}, unending[][BENCH_VALUE_BYTES] = {WHOLE(6), TRUE_VALUE};

/* Bytes lent behind a machine's memory; more rounds than those of a machine here that comes to rest; firings of which all but the first are the loop's. */
enum { BEHIND = 100, MANY_ROUNDS = 1000, SOME_FIRINGS = 100, MANY_FIRINGS = 100000 };

/* One round: each operator in turn, and how many fired. */
static uint32_t one_by_one(uint8_t *mem) {
    uint32_t fired = 0;
    for (uint32_t i = 0; i < operators_of(mem); i++) {
        fired += bench_fire(mem, length, i, &tally).refusal == BENCH_ACCEPTED;
    }
    return fired;
}

/* Rounds by single firings. Whether something can fire after them a run lent none tells. */
static bench_rounds_answer by_firings(uint8_t *mem, uint32_t lent) {
    bench_rounds_answer answer = {0, 0, 0};
    while (answer.rounds < lent) {
        uint32_t fired = one_by_one(mem);
        if (fired == 0) {
            break;
        }
        answer.rounds++;
        answer.firings += fired;
    }
    answer.refusal = bench_run(mem, length, 0, &tally).refusal;
    return answer;
}

static void same(const char *what, bench_rounds_answer got, bench_rounds_answer wanted) {
    expect(what, got.refusal, wanted.refusal);
    expect(what, got.rounds, wanted.rounds);
    expect(what, got.firings == wanted.firings, 1);
}

/* A run by rounds beside the same by firings; nothing else of the memory is touched. */
static bench_rounds_answer rounds(const char *what, uint32_t lent) {
    uint8_t *copy = lend(memory, length);
    bench_rounds_answer answer = bench_run_rounds(memory, length, lent, &tally);
    same(what, answer, by_firings(copy, lent));
    expect(what, memcmp(memory, copy, length) == 0, 1);
    expect(what, answer.rounds <= lent && answer.rounds <= answer.firings, 1);
    expect(what, answer.refusal == BENCH_ACCEPTED || answer.rounds == lent, 1);
    free(copy);
    return answer;
}

/* This answer, and no byte changes. */
static void leaves_all(const char *what, uint32_t lent, uint32_t refusal) {
    uint8_t *before = lend(memory, length);
    same(what, bench_run_rounds(memory, length, lent, &tally), (bench_rounds_answer){refusal, 0, 0});
    expect(what, length == 0 || memcmp(memory, before, length) == 0, 1);
    free(before);
}

static void push(const uint8_t *set, size_t bytes) {
    expect("push", bench_push(memory, length, set, bytes, &tally).refusal, BENCH_ACCEPTED);
}

/* The oldest untaken set's verdict is this value. */
static void taken(const char *what, const uint8_t *value) {
    uint8_t out[BENCH_RESULT_BYTES];
    expect(what, bench_take(memory, length, out, sizeof out, &tally).refusal, BENCH_ACCEPTED);
    expect(what, memcmp(out, value, BENCH_VALUE_BYTES) == 0, 1);
}

static void pending(const char *what) {
    uint8_t out[BENCH_RESULT_BYTES];
    expect(what, bench_take(memory, length, out, sizeof out, &tally).refusal, BENCH_NO_RESULT);
}

/* 11 before 31; a quiet machine makes no round, whatever is lent. */
static void refusals(void) {
    static const uint32_t numbers[] = {0, 1, 2, UINT32_MAX};
    for (size_t i = 0; i < sizeof numbers / sizeof numbers[0]; i++) {
        begin(&factorial, 2);
        leaves_all("quiet", numbers[i], BENCH_ACCEPTED);
        memory[UNTAKEN_AT] = MOST_UNTAKEN + 1;
        leaves_all("31", numbers[i], BENCH_ALTERED);
        length--;
        leaves_all("11 before 31", numbers[i], BENCH_MEMORY);
        length = 0;
        leaves_all("no memory", numbers[i], BENCH_MEMORY);
        expect("NULL", bench_run_rounds(NULL, 0, numbers[i], &tally).refusal, BENCH_MEMORY);
        begin(&pair, 2);
        push(ending[0], sizeof ending);
        leaves_all("no operator", numbers[i], BENCH_ACCEPTED);
    }
    begin(&factorial, 2);
    push(ending[0], BENCH_VALUE_BYTES);
    leaves_all("none lent, and something can fire", 0, BENCH_UNFINISHED);
}

/* The rounds of a machine to its end, in one call and in steps: 36 keeps them, and together they are those of the one call. */
static void in_steps(uint32_t capacity) {
    static const uint8_t five[] = WHOLE(5), three[] = WHOLE(3), result[] = WHOLE(120), other[] = WHOLE(6);
    static const uint32_t steps[] = {UINT32_MAX, 7, 3, 2, 1};
    bench_rounds_answer whole = {0, 0, 0};
    for (size_t i = 0; i < sizeof steps / sizeof steps[0]; i++) {
        bench_rounds_answer sum = {BENCH_UNFINISHED, 0, 0};
        begin(&factorial, capacity);
        push(five, sizeof five);
        if (capacity > 1) {
            push(three, sizeof three);
        }
        while (sum.refusal == BENCH_UNFINISHED && sum.rounds < MANY_ROUNDS) {
            bench_rounds_answer answer = rounds("in steps", steps[i]);
            sum = (bench_rounds_answer){answer.refusal, sum.rounds + answer.rounds, sum.firings + answer.firings};
        }
        whole = i == 0 ? sum : whole;
        same("as one call", sum, whole);
        taken("five", result);
        if (capacity > 1) {
            taken("three", other);
        }
        pending("no more");
    }
}

/* As many rounds as there are, and one fewer: 36 exactly where something can fire after them. */
static void exactly(void) {
    static const uint8_t five[] = WHOLE(5);
    begin(&factorial, 1);
    push(five, sizeof five);
    uint8_t *before = lend(memory, length);
    bench_rounds_answer whole = rounds("to the end", UINT32_MAX);
    expect("to the end", whole.refusal, BENCH_ACCEPTED);
    memcpy(memory, before, length);
    same("as many as lent", rounds("as many as lent", whole.rounds), whole);
    memcpy(memory, before, length);
    bench_rounds_answer fewer = rounds("one fewer", whole.rounds - 1);
    expect("one fewer", fewer.refusal, BENCH_UNFINISHED);
    expect("one fewer", fewer.rounds, whole.rounds - 1);
    free(before);
}

/* Bytes lent past a machine's need stay as they are. */
static void bytes_behind(void) {
    static const uint8_t five[] = WHOLE(5), result[] = WHOLE(120);
    begin(&factorial, 2);
    push(five, sizeof five);
    uint8_t *longer = realloc(memory, length + BEHIND);
    if (longer == NULL) {
        exit(2);
    }
    memory = longer;
    memset(memory + length, 0x5a, BEHIND);
    length += BEHIND;
    uint8_t *before = lend(memory, length);
    expect("bytes behind", rounds("bytes behind", UINT32_MAX).refusal, BENCH_ACCEPTED);
    expect("bytes behind", memcmp(memory + length - BEHIND, before + length - BEHIND, BEHIND) == 0, 1);
    taken("bytes behind", result);
    free(before);
}

/* How often each operator has fired. */
struct times {
    uint32_t of[MOST_OPERATORS];
};

/* Fires the least-numbered able operator and counts it, as a run does; 0 where none is able. */
static int fire_least(struct times *times) {
    for (uint32_t i = 0; i < operators_of(memory); i++) {
        if (bench_fire(memory, length, i, &tally).refusal == BENCH_ACCEPTED) {
            times->of[i]++;
            return 1;
        }
    }
    return 0;
}

/* The older set ends, the later one loops without end. */
static void begin_both(void) {
    begin(&loop, 2);
    push(ending[0], sizeof ending);
    push(unending[0], sizeof unending);
}

/* However many firings a run is lent, it makes those of the loop, and the older verdict waits. A round makes it ready. */
static void nobody_waits(void) {
    begin_both();
    bench_answer run = bench_run(memory, length, MANY_FIRINGS, &tally);
    expect("a run", run.refusal, BENCH_UNFINISHED);
    expect("a run", run.count, MANY_FIRINGS);
    pending("behind the loop");
    expect("after the run", rounds("after the run", 1).refusal, BENCH_UNFINISHED);
    taken("after the run", ending[0]);
    pending("the looping set");
    expect("the looping set", rounds("the looping set", MANY_ROUNDS).rounds, MANY_ROUNDS);
    pending("the looping set");
}

/* "Count the firings that working one set after another would make up to and including that set, less those of them already made", operator by operator. */
static uint32_t owed(const struct times *wanted, const struct times *made) {
    uint32_t sum = 0;
    for (size_t i = 0; i < MOST_OPERATORS; i++) {
        sum += wanted->of[i] > made->of[i] ? wanted->of[i] - made->of[i] : 0;
    }
    return sum;
}

/* "After at most that many rounds its whole result is ready": from the pushes on, and after each firing of a run. */
static void ready_by_then(void) {
    static struct times wanted, made;
    begin(&loop, 2);
    push(ending[0], sizeof ending);
    while (fire_least(&wanted)) {
    }
    begin_both();
    expect("something is owed", owed(&wanted, &made) > 0, 1);
    for (int firings = 0; firings < SOME_FIRINGS; firings++) {
        uint8_t *before = lend(memory, length);
        uint32_t most = owed(&wanted, &made);
        expect("each lent round", rounds("each lent round", most).rounds, most);
        taken("ready by then", ending[0]);
        memcpy(memory, before, length);
        free(before);
        expect("the loop goes on", (uint32_t)fire_least(&made), 1);
    }
    pending("after the firings");
    expect("still owed", owed(&wanted, &made) > 0, 1);
}

int main(void) {
    refusals();
    for (uint32_t capacity = 1; capacity <= MOST_CAPACITY; capacity++) {
        in_steps(capacity);
    }
    exactly();
    bytes_behind();
    nobody_waits();
    ready_by_then();
    free(memory);
    return tell();
}
