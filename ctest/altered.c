/*
 * The calls through the C interface on memory that something else has altered, on memory of every length, and with every number: each refusal in its
 * order, and every byte afterwards. The layout is docs/MEMORY.md's.
 */
#include "machine.h"

#include "figures.h"

/* The capacity of most machines here, and the length of a link's stretch at it. */
enum { CAPACITY = 2, STRETCH = BENCH_VALUE_BYTES * CAPACITY + 1 };

static const uint8_t five[] = {BENCH_WHOLE, 5, 0, 0, 0};
static const uint8_t two_values[] = {BENCH_WHOLE, 5, 0, 0, 0, BENCH_TRUTH, 1, 0, 0, 0};

static void header(void) {
    graph_header();
    bad_byte("too many untaken", UNTAKEN_AT, MOST_UNTAKEN + 1);
    good_byte("sixteen untaken", UNTAKEN_AT, MOST_UNTAKEN);
}

static void link_of(size_t at) {
    uint8_t held[STRETCH];
    memcpy(held, memory + at, STRETCH);
    bad_byte("more tokens than places", at, CAPACITY + 1);
    bad_byte("255 tokens", at, UINT8_MAX);
    memory[at] = CAPACITY;
    for (size_t token = at + 1; token < at + STRETCH; token += BENCH_VALUE_BYTES) {
        memcpy(memory + token, five, sizeof five);
    }
    stands("a full link");
    for (size_t token = at + 1; token < at + STRETCH; token += BENCH_VALUE_BYTES) {
        bad_byte("tag 0", token, 0);
        bad_byte("a tag past the last", token, BENCH_REAL + 1);
        good_byte("a float", token, BENCH_REAL);
        bad_byte("a truth that is neither", token, BENCH_TRUTH);
        bad_byte("an err of reason 5", token, BENCH_ERR);
        errs_at(token);
    }
    memory[at] = 1;
    memset(memory + at + 1 + BENCH_VALUE_BYTES, 0xee, BENCH_VALUE_BYTES);
    stands("a free place may hold anything");
    memcpy(memory + at, held, STRETCH);
}

static void links_and_tokens(void) {
    unsigned links = figure(LINKS_AT);
    for (unsigned l = 0; l < links; l++) {
        link_of(STRETCHES_AT + (size_t)l * STRETCH);
    }
    /* behind the last link of the graph and the last operator anything may stand */
    size_t behind = STRETCHES_AT + (size_t)links * STRETCH;
    memset(memory + behind, 0xee, length - behind);
    memset(memory + RECORDS_AT + RECORD_BYTES * (size_t)figure(OPERATORS_AT), 0xee, RECORD_BYTES);
    stands("bytes that the graph does not use");
}

static bench_start_answer start(const struct sheet *sheet, uint32_t capacity, uint8_t *mem, size_t bytes) {
    const uint8_t *rows = (const uint8_t *)sheet->rows, *kinds = (const uint8_t *)sheet->kinds;
    return bench_start(rows, strlen(sheet->rows), kinds, strlen(sheet->kinds), capacity, mem, bytes, &tally);
}

static void lengths(void) {
    uint8_t out[BENCH_RESULT_BYTES] = {0};
    expect("push, no memory", bench_push(NULL, 0, five, sizeof five, &tally).refusal, BENCH_MEMORY);
    expect("a tray, no memory", bench_push_tray(NULL, 0, five, sizeof five, 1, &tally).refusal, BENCH_MEMORY);
    expect("fire, no memory", bench_fire(NULL, 0, 0, &tally).refusal, BENCH_MEMORY);
    expect("run, no memory", bench_run(NULL, 0, 1, &tally).refusal, BENCH_MEMORY);
    expect("run by rounds, no memory", bench_run_rounds(NULL, 0, 1, &tally).refusal, BENCH_MEMORY);
    expect("take, no memory", bench_take(NULL, 0, out, sizeof out, &tally).refusal, BENCH_MEMORY);
    expect("start, no memory", start(&pair, 1, NULL, 0).refusal, BENCH_MEMORY);
    for (uint32_t capacity = 1; capacity <= MOST_CAPACITY; capacity++) {
        begin(&factorial, capacity);
        length--;
        all_refuse("a byte too few", BENCH_MEMORY);
        memory[CAPACITY_AT] = 0;
        if (capacity > 1) {
            all_refuse("stored capacity 0", BENCH_ALTERED);
            memory[CAPACITY_AT] = MOST_CAPACITY + 1;
            all_refuse("stored capacity 17", BENCH_ALTERED);
        } else {
            all_refuse("stored capacity 0 and a byte too few for 1", BENCH_MEMORY);
        }
        length++;
    }
    begin(&factorial, 1);
    memory[CAPACITY_AT] = 0;
    all_refuse("stored capacity 0 in a memory for 1", BENCH_ALTERED);
    memory[CAPACITY_AT] = MOST_CAPACITY + 1;
    all_refuse("stored capacity 17 in a memory for 1", BENCH_ALTERED);
    memory[CAPACITY_AT] = 2;
    all_refuse("stored capacity 2 in a memory for 1", BENCH_MEMORY);
    begin(&pair, CAPACITY);
    uint8_t short_out[BENCH_RESULT_BYTES - 1] = {0};
    memory[RESULTS_AT] = 0;
    expect("take, 11 before 31", bench_take(memory, length, short_out, sizeof short_out, &tally).refusal, BENCH_MEMORY);
    expect("take, 31", bench_take(memory, length, out, sizeof out, &tally).refusal, BENCH_ALTERED);
}

static void starts(void) {
    static const struct sheet no_rows = {"x", "x"};
    static const struct sheet iter_alone = {"     1     0     0     0     0\n     9     1     0     0     0\n", "x"};
    uint32_t wrong[] = {0, MOST_CAPACITY + 1, 255, 256, 257, UINT32_MAX};
    size_t size = BENCH_MACHINE_BYTES(1);
    uint8_t *mem = malloc(size);
    if (mem == NULL) {
        exit(2);
    }
    memset(mem, 7, size);
    for (size_t i = 0; i < sizeof wrong / sizeof wrong[0]; i++) {
        expect("capacity", start(&no_rows, wrong[i], mem, size).refusal, BENCH_CAPACITY);
        expect("11 before 14", start(&no_rows, wrong[i], mem, size - 1).refusal, BENCH_MEMORY);
    }
    expect("a bad sheet", start(&no_rows, 1, mem, size).refusal, BENCH_LINES);
    expect("11 before 1", start(&no_rows, 2, mem, size).refusal, BENCH_MEMORY);
    bench_start_answer iter = start(&iter_alone, 1, mem, size);
    expect("iter as the formula", iter.refusal, BENCH_ITER);
    expect("its row", iter.row, 2);
    for (size_t i = 0; i < size; i++) {
        if (mem[i] != 7) {
            expect("a refused start altered its memory", (uint32_t)i, 0);
            break;
        }
    }
    bench_start_answer good = start(&factorial, 1, mem, size);
    expect("factorial", good.refusal, BENCH_ACCEPTED);
    expect("its operators", good.operators, 32);
    expect("its inputs", good.inputs, 1);
    expect("its results", good.results, 1);
    free(mem);
}

static void orders(void) {
    static const uint8_t bad[] = {BENCH_REAL + 1, 0, 0, 0, 0};
    uint8_t out[BENCH_RESULT_BYTES];
    begin(&factorial, CAPACITY);
    memory[UNTAKEN_AT] = MOST_UNTAKEN;
    expect("12 before 32", bench_push(memory, length, bad, sizeof bad, &tally).refusal, BENCH_SET);
    for (size_t i = 0; i < sizeof no_reasons / sizeof no_reasons[0]; i++) {
        expect("an err of no reason", bench_push(memory, length, no_reasons[i], BENCH_VALUE_BYTES, &tally).refusal, BENCH_SET);
    }
    expect("a set too long", bench_push(memory, length, two_values, sizeof two_values, &tally).refusal, BENCH_SET);
    expect("a set too short", bench_push(memory, length, five, sizeof five - 1, &tally).refusal, BENCH_SET);
    expect("an empty set", bench_push(memory, length, five, 0, &tally).refusal, BENCH_SET);
    expect("32", bench_push(memory, length, five, sizeof five, &tally).refusal, BENCH_UNTAKEN);
    size_t input = STRETCHES_AT + STRETCH * (size_t)figure(INPUT_LINKS_AT);
    memory[input] = CAPACITY;
    memcpy(memory + input + 1, two_values, sizeof two_values);
    expect("32 before 33", bench_push(memory, length, five, sizeof five, &tally).refusal, BENCH_UNTAKEN);
    memory[UNTAKEN_AT] = MOST_UNTAKEN - 1;
    expect("33", bench_push(memory, length, five, sizeof five, &tally).refusal, BENCH_FULL);
    memory[UNTAKEN_AT] = 0;
    expect("35", bench_take(memory, length, out, sizeof out, &tally).refusal, BENCH_NO_RESULT);

    begin(&factorial, CAPACITY);
    expect("no operator can fire", bench_run(memory, length, 0, &tally).refusal, BENCH_ACCEPTED);
    expect("push", bench_push(memory, length, five, sizeof five, &tally).refusal, BENCH_ACCEPTED);
    bench_answer none = bench_run(memory, length, 0, &tally);
    expect("a run lent 0", none.refusal, BENCH_UNFINISHED);
    expect("its count", none.count, 0);
    uint32_t last = figure(OPERATORS_AT) - 1;
    expect("one past the last operator", bench_fire(memory, length, last + 1, &tally).refusal, BENCH_NOT_ABLE);
    expect("the largest number", bench_fire(memory, length, UINT32_MAX, &tally).refusal, BENCH_NOT_ABLE);
    uint32_t able = 0;
    for (uint32_t i = 0; i <= last; i++) {
        uint8_t *copy = malloc(length);
        if (copy == NULL) {
            exit(2);
        }
        memcpy(copy, memory, length);
        uint32_t refusal = bench_fire(copy, length, i, &tally).refusal;
        able += refusal == BENCH_ACCEPTED;
        expect("fired or not able", refusal == BENCH_ACCEPTED || refusal == BENCH_NOT_ABLE, 1);
        expect("not able leaves memory", refusal == BENCH_ACCEPTED || memcmp(copy, memory, length) == 0, 1);
        free(copy);
    }
    expect("some operator can fire", able > 0, 1);
    bench_answer all = bench_run(memory, length, 1000000, &tally);
    expect("a run to its end", all.refusal, BENCH_ACCEPTED);
    expect("nothing can fire", bench_run(memory, length, 1, &tally).count, 0);
    bench_answer taken = bench_take(memory, length, out, sizeof out, &tally);
    expect("take", taken.refusal, BENCH_ACCEPTED);
    expect("width", taken.count, 1);
    static const uint8_t verdict[] = {BENCH_WHOLE, 120, 0, 0, 0};
    expect("120", (uint32_t)memcmp(out, verdict, sizeof verdict), 0);
    expect("err past the width", out[BENCH_VALUE_BYTES] == BENCH_ERR && out[BENCH_RESULT_BYTES - BENCH_VALUE_BYTES] == BENCH_ERR, 1);
    expect("taken once", bench_take(memory, length, out, sizeof out, &tally).refusal, BENCH_NO_RESULT);
}

static void sixteen(void) {
    begin(&pair, MOST_CAPACITY);
    for (int i = 0; i < MOST_UNTAKEN; i++) {
        expect("sixteen pushes pass", bench_push(memory, length, two_values, sizeof two_values, &tally).refusal, BENCH_ACCEPTED);
    }
    expect("the seventeenth", bench_push(memory, length, two_values, sizeof two_values, &tally).refusal, BENCH_UNTAKEN);
    begin(&pair, 1);
    expect("one push", bench_push(memory, length, two_values, sizeof two_values, &tally).refusal, BENCH_ACCEPTED);
    expect("a full link", bench_push(memory, length, two_values, sizeof two_values, &tally).refusal, BENCH_FULL);
    bad_figure("results named twice", RESULT_LINKS_AT + FIGURE_BYTES, figure(RESULT_LINKS_AT));
    bad_figure("inputs named twice", INPUT_LINKS_AT + FIGURE_BYTES, figure(INPUT_LINKS_AT));
    uint8_t out[BENCH_RESULT_BYTES + 10];
    memset(out, 0x5a, sizeof out);
    bench_answer taken = bench_take(memory, length, out, sizeof out, &tally);
    expect("both values", taken.count, 2);
    expect("their bytes", (uint32_t)memcmp(out, two_values, sizeof two_values), 0);
    expect("err behind them", out[sizeof two_values] == BENCH_ERR && out[BENCH_RESULT_BYTES - 1] == 0, 1);
    expect("nothing behind the result set", out[BENCH_RESULT_BYTES] == 0x5a && out[sizeof out - 1] == 0x5a, 1);
}

/* What may wait first on a link: nothing, or a token of each sort. */
enum sort { NOTHING, TRUE_TOKEN, FALSE_TOKEN, WHOLE_TOKEN, E_TOKEN, Z_TOKEN, V_TOKEN, SORTS };
static const uint8_t tokens[SORTS][BENCH_VALUE_BYTES] = {
    [TRUE_TOKEN] = TRUE_VALUE, [FALSE_TOKEN] = FALSE_VALUE, [WHOLE_TOKEN] = WHOLE(5), [E_TOKEN] = E_VALUE, [Z_TOKEN] = Z_VALUE, [V_TOKEN] = V_VALUE};

static size_t stretch_at(size_t name) {
    return STRETCHES_AT + STRETCH * (size_t)figure(name);
}

static void put_token(size_t stretch, enum sort sort) {
    memory[stretch] = sort != NOTHING;
    memcpy(memory + stretch + 1, tokens[sort], BENCH_VALUE_BYTES);
}

/* Nothing or just this token waits on a link. */
static void waits(const char *what, size_t stretch, enum sort sort) {
    expect(what, memory[stretch], sort != NOTHING);
    expect(what, sort == NOTHING || memcmp(memory + stretch + 1, tokens[sort], BENCH_VALUE_BYTES) == 0, 1);
}

/* A row of Brock's table of the IC gate: the control, the input that it chooses; the graph's iter?, the I control, the R control. */
struct row {
    enum sort control, chosen, iter, again, result;
};
static const struct row rows[] = {
    {TRUE_TOKEN, TRUE_TOKEN, TRUE_TOKEN, TRUE_TOKEN, NOTHING},
    {TRUE_TOKEN, FALSE_TOKEN, FALSE_TOKEN, NOTHING, TRUE_TOKEN},
    {FALSE_TOKEN, TRUE_TOKEN, TRUE_TOKEN, FALSE_TOKEN, NOTHING},
    {FALSE_TOKEN, FALSE_TOKEN, FALSE_TOKEN, NOTHING, FALSE_TOKEN},
    {E_TOKEN, NOTHING, FALSE_TOKEN, NOTHING, E_TOKEN},
};

/* A sort as it is, and all that are no truths as one. */
static enum sort unless_truth(enum sort sort, enum sort one) {
    return sort == NOTHING || sort == TRUE_TOKEN || sort == FALSE_TOKEN ? sort : one;
}

/* The row for the tokens that wait, NULL where the gate is not able: a control that is no truth is like E, a chosen input that is no truth like false. */
static const struct row *row_of(enum sort control, enum sort second, enum sort third) {
    enum sort chosen = control == TRUE_TOKEN ? second : control == FALSE_TOKEN ? third : NOTHING;
    for (size_t r = 0; r < sizeof rows / sizeof rows[0]; r++) {
        if (rows[r].control == unless_truth(control, E_TOKEN) && rows[r].chosen == unless_truth(chosen, FALSE_TOKEN)) {
            return &rows[r];
        }
    }
    return NULL;
}

/* IC with these tokens on its inputs: what it takes and gives, by its row. */
static void join(uint32_t operator, enum sort control, enum sort second, enum sort third) {
    size_t names = RECORDS_AT + RECORD_BYTES * (size_t)operator + PORTS_AT, port[PORTS];
    for (unsigned p = 0; p < PORTS; p++) {
        port[p] = stretch_at(names + FIGURE_BYTES * p);
        put_token(port[p], NOTHING);
    }
    put_token(port[0], control);
    put_token(port[1], second);
    put_token(port[2], third);
    const struct row *row = row_of(control, second, third);
    expect("IC fires where a row holds", bench_fire(memory, length, operator, &tally).refusal, row != NULL ? BENCH_ACCEPTED : BENCH_NOT_ABLE);
    waits("IC's control", port[0], row != NULL ? NOTHING : control);
    waits("IC's second input", port[1], row != NULL && control == TRUE_TOKEN ? NOTHING : second);
    waits("IC's third input", port[2], row != NULL && control == FALSE_TOKEN ? NOTHING : third);
    waits("the graph's iter?", port[INPUT_PORTS], row != NULL ? row->iter : NOTHING);
    waits("the I control", port[INPUT_PORTS + 1], row != NULL ? row->again : NOTHING);
    waits("the R control", port[INPUT_PORTS + 2], row != NULL ? row->result : NOTHING);
}

/* IC with a true control and a true iter? wants a place on its first and its second output, and none on its third. */
static void join_when_full(uint32_t operator) {
    size_t names = RECORDS_AT + RECORD_BYTES * (size_t)operator + PORTS_AT;
    for (unsigned full = INPUT_PORTS; full < PORTS; full++) {
        for (unsigned p = 0; p < PORTS; p++) {
            put_token(stretch_at(names + FIGURE_BYTES * p), p < INPUT_PORTS ? TRUE_TOKEN : NOTHING);
        }
        size_t stretch = stretch_at(names + FIGURE_BYTES * full);
        memory[stretch] = CAPACITY;
        memcpy(memory + stretch + 1, two_values, sizeof two_values);
        uint32_t wanted = full == INPUT_PORTS + 2 ? BENCH_ACCEPTED : BENCH_NOT_ABLE;
        expect("IC with a full output", bench_fire(memory, length, operator, &tally).refusal, wanted);
        expect("a full link stays full", memory[stretch], CAPACITY);
        put_token(stretch, NOTHING);
    }
}

/* Every sort of token on each input of factorial's IC gate, which gets a link for its second output. */
static void loop_join(void) {
    begin(&factorial, CAPACITY);
    uint32_t operator = 0;
    while (memory[RECORDS_AT + RECORD_BYTES * (size_t)operator] != IC) {
        operator++;
    }
    unsigned links = figure(LINKS_AT);
    put_figure(RECORDS_AT + RECORD_BYTES * (size_t)operator + PORTS_AT + FIGURE_BYTES * (INPUT_PORTS + 1), links);
    put_figure(LINKS_AT, links + 1);
    for (enum sort control = NOTHING; control < SORTS; control++) {
        for (enum sort second = NOTHING; second < SORTS; second++) {
            for (enum sort third = NOTHING; third < SORTS; third++) {
                join(operator, control, second, third);
            }
        }
    }
    join_when_full(operator);
}

/* Sets and results with reasons through push, run and take; the same sets as in an evaluation. */
static void errs_with_reasons(void) {
    for (size_t i = 0; i < sizeof reasons / sizeof reasons[0]; i++) {
        const char *what = reasons[i].what;
        uint8_t out[BENCH_RESULT_BYTES];
        begin(reasons[i].sheet, 1);
        expect(what, bench_push(memory, length, reasons[i].set[0], sizeof reasons[i].set, &tally).refusal, BENCH_ACCEPTED);
        expect(what, bench_run(memory, length, 100, &tally).refusal, BENCH_ACCEPTED);
        expect(what, bench_take(memory, length, out, sizeof out, &tally).count, 2);
        expect(what, (uint32_t)memcmp(out, reasons[i].result, sizeof reasons[i].result), 0);
    }
    static const uint8_t sets[][BENCH_VALUE_BYTES] = {WHOLE(13), Z_VALUE, V_VALUE}, results[][BENCH_VALUE_BYTES] = {V_VALUE, E_VALUE, E_VALUE};
    begin(&factorial, CAPACITY);
    for (size_t i = 0; i < sizeof sets / sizeof sets[0]; i++) {
        uint8_t out[BENCH_RESULT_BYTES];
        expect("factorial of 13, Z, V", bench_push(memory, length, sets[i], BENCH_VALUE_BYTES, &tally).refusal, BENCH_ACCEPTED);
        expect("factorial of 13, Z, V", bench_run(memory, length, 10000, &tally).refusal, BENCH_ACCEPTED);
        expect("factorial of 13, Z, V", bench_take(memory, length, out, sizeof out, &tally).count, 1);
        expect("factorial of 13, Z, V", (uint32_t)memcmp(out, results[i], BENCH_VALUE_BYTES), 0);
    }
}

int main(void) {
    loop_join();
    errs_with_reasons();
    lengths();
    starts();
    orders();
    sixteen();
    begin(&factorial, CAPACITY);
    header();
    operators(LAST_KIND);
    links_and_tokens();
    free(memory);
    return tell();
}
