/*
 * Results behind sets that never end, through the C interface: of four beacons some loop for ever, and each result that is taken behind them is what evaluation of
 * its own set gives, at every capacity, by rounds and by single firings upwards and downwards, whichever of the others are swapped (document 02, Job 11).
 */
#include "machine.h"

/* "let x4 = (for x2 = x1 do if x2 then iter x2 else x0) in if x3 then x0 else x4": loops without end where x1 is true, and gives x0 without waiting where x3 is. */
static const struct sheet beside_loop = {
    LOOP_ROWS
    "     1     3     0     0     0\n"
    "     1     0     0     0     0\n"
    "     1     4     0     0     0\n"
    "     7     8     9    10     0\n"
    "     6     4     1     7    11\n",
    "WTT\n"};

/* More rounds than any set here needs that ends, and passes enough for all four where none loops. */
enum { SETS = 4, SET_BYTES = 3 * BENCH_VALUE_BYTES, ENOUGH_ROUNDS = 100, PASSES = 40 };

enum order { BY_ROUNDS, UPWARDS, DOWNWARDS, ORDERS };

/* Set k of the run in which the sets of `endless` loop. */
static void set_of(uint32_t k, uint32_t endless, uint8_t *set) {
    uint8_t values[][BENCH_VALUE_BYTES] = {WHOLE(0), FALSE_VALUE, TRUE_VALUE}, loops[] = TRUE_VALUE;
    values[0][1] = (uint8_t)(10 * k + (endless >> k & 1));
    if (endless >> k & 1) {
        memcpy(values[1], loops, sizeof loops);
    }
    memcpy(set, values, sizeof values);
}

static void some_firings(enum order order) {
    uint32_t n = operators_of(memory);
    if (order == BY_ROUNDS) {
        bench_run_rounds(memory, length, 1, &tally);
        return;
    }
    for (uint32_t i = 0; i < n; i++) {
        bench_fire(memory, length, order == UPWARDS ? i : n - 1 - i, &tally);
    }
}

/* What evaluation gives for a set; it ends exactly where the set does not loop. */
static void evaluated(const uint8_t *set, int loops, uint8_t *out) {
    const uint8_t *rows = (const uint8_t *)beside_loop.rows, *kinds = (const uint8_t *)beside_loop.kinds;
    bench_evaluate_answer answer =
        bench_evaluate(rows, strlen(beside_loop.rows), kinds, strlen(beside_loop.kinds), set, SET_BYTES, ENOUGH_ROUNDS, out, BENCH_RESULT_BYTES);
    expect("evaluation", answer.refusal, loops ? BENCH_UNFINISHED : BENCH_ACCEPTED);
}

/* One run; gives how many results were taken behind a set that loops. */
static uint32_t run_of(uint32_t capacity, enum order order, uint32_t endless) {
    uint32_t pushed = 0, taken = 0, behind = 0;
    begin(&beside_loop, capacity);
    for (int pass = 0; pass < PASSES; pass++) {
        uint8_t set[SET_BYTES], out[BENCH_RESULT_BYTES], wanted[BENCH_RESULT_BYTES];
        if (pushed < SETS) {
            set_of(pushed, endless, set);
            pushed += bench_push(memory, length, set, sizeof set, &tally).refusal == BENCH_ACCEPTED;
        }
        some_firings(order);
        if (bench_take(memory, length, out, sizeof out, &tally).refusal == BENCH_ACCEPTED) {
            int loops = (int)(endless >> taken & 1);
            set_of(taken, endless, set);
            evaluated(set, loops, wanted);
            if (!loops) {
                expect("its own result", memcmp(out, wanted, sizeof out) == 0, 1);
                behind += (endless & ((1u << taken) - 1)) != 0;
            }
            taken++;
        }
    }
    expect("all pushed and taken where none loops", endless == 0 && (pushed != SETS || taken != SETS), 0);
    return behind;
}

int main(void) {
    uint32_t behind = 0;
    for (uint32_t capacity = 1; capacity <= MOST_CAPACITY; capacity++) {
        for (enum order order = BY_ROUNDS; order < ORDERS; order++) {
            for (uint32_t endless = 0; endless < 1u << SETS; endless++) {
                behind += run_of(capacity, order, endless);
            }
        }
    }
    expect("results behind sets that loop", behind > 0, 1);
    printf("%u results taken behind a set that never ends\n", behind);
    free(memory);
    return tell();
}
