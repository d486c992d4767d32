/*
 * The machine with tags through the C interface (document 02, Job 12): the life of a tag, quick sets that overtake slow ones, each refusal in its order with every
 * byte afterwards, memory of every length, memory of one machine handed to the other's calls, and every figure of the memory altered.
 */
#include "tagged.h"

#include "figures.h"
#include "refused.h"

/* The last kind of operator that a graph without for has, and the kind byte of an add. */
enum { LAST_LOOPLESS_KIND = M, ADD_KIND = 1 };

static const uint8_t five[] = WHOLE(5);

/* "let x2 = ((x0 + 1) + 1) + 1 in if x1 then 1 else x2": where x1 is true the result does not wait for the sums. */
static const struct sheet slow_sum = {
    "     1     0     0     0     0\n"
    "     2     1     0     0     0\n"
    "     4     1     2     0     0\n"
    "     5     1     3     0     0\n"
    "     2     1     0     0     0\n"
    "     4     4     5     0     0\n"
    "     5     1     6     0     0\n"
    "     2     1     0     0     0\n"
    "     4     7     8     0     0\n"
    "     5     1     9     0     0\n"
    "     1     1     0     0     0\n"
    "     2     1     0     0     0\n"
    "     1     2     0     0     0\n"
    "     7    11    12    13     0\n"
    "     6     2     1    10    14\n",
    "WT\n"};

/* A quick set and slow ones of that sheet. */
static const uint8_t quick_set[][BENCH_VALUE_BYTES] = {WHOLE(40), TRUE_VALUE}, slow_set[][BENCH_VALUE_BYTES] = {WHOLE(20), FALSE_VALUE};
static const uint8_t one[] = WHOLE(1), twenty_three[] = WHOLE(23);

/* Two values of which the first has a tag that is none. */
static const uint8_t bad_set[][BENCH_VALUE_BYTES] = {{BENCH_REAL + 1, 0, 0, 0, 0}, TRUE_VALUE};

/* An identifier: the result link is the input link, and there is no operator. */
static const struct sheet identifier = {"     1     0     0     0     0\n", "W\n"};

/* A set pushed gets this tag. */
static void push(const char *what, const void *set, size_t bytes, uint32_t tag) {
    bench_answer answer = bench_tagged_push(memory, length, set, bytes);
    expect(what, answer.refusal, BENCH_ACCEPTED);
    expect(what, answer.count, tag);
}

/* The one value of a taken result; bytes behind sixteen values stay. */
static void take(const char *what, uint32_t tag, const uint8_t *wanted) {
    uint8_t out[BENCH_RESULT_BYTES + 10];
    memset(out, UNWRITTEN, sizeof out);
    bench_answer answer = bench_tagged_take(memory, length, tag, out, sizeof out);
    expect(what, answer.refusal, BENCH_ACCEPTED);
    expect(what, answer.count, 1);
    expect(what, (uint32_t)memcmp(out, wanted, BENCH_VALUE_BYTES), 0);
    expect(what, out[BENCH_VALUE_BYTES] == BENCH_ERR && out[BENCH_RESULT_BYTES - 1] == 0, 1);
    expect(what, out[BENCH_RESULT_BYTES] == UNWRITTEN && out[sizeof out - 1] == UNWRITTEN, 1);
}

/* A take that is refused, and leaves every byte. */
static void no_result(const char *what, uint32_t tag) {
    uint8_t *before = lend(memory, length), out[BENCH_RESULT_BYTES] = {UNWRITTEN};
    refused(what, bench_tagged_take(memory, length, tag, out, sizeof out), BENCH_NO_TAG_RESULT, before);
    expect(what, out[0], UNWRITTEN);
    free(before);
}

/* Fires what is able under a tag, as long as something is; the adds too, or all but these. */
static void fire_under(uint32_t tag, int adds) {
    uint32_t fired = 1;
    while (fired > 0) {
        fired = 0;
        for (uint32_t i = 0; i < operators_of(memory); i++) {
            if (adds || memory[RECORDS_AT + RECORD_BYTES * (size_t)i] != ADD_KIND) {
                fired += bench_tagged_fire(memory, length, i, tag).refusal == BENCH_ACCEPTED;
            }
        }
    }
}

/* A run to its end. */
static void run(const char *what) {
    expect(what, bench_tagged_run(memory, length, UINT32_MAX).refusal, BENCH_ACCEPTED);
}

/* A set behind another one that is not yet through: no byte of the slow one's tag is touched. */
static void overtaking(void) {
    begin(&slow_sum);
    push("a slow set", slow_set, sizeof slow_set, 0);
    push("a quick set", quick_set, sizeof quick_set, 1);
    uint8_t *before = lend(memory, length);
    fire_under(1, 1);
    expect("the slow set's tokens", (uint32_t)memcmp(memory + stretch_at(0, 0), before + stretch_at(0, 0), PLANE), 0);
    free(before);
    no_result("the slow set's result", 0);
    take("the quick set overtakes", 1, one);
    no_result("taken once", 1);
    push("its tag again", quick_set, sizeof quick_set, 1);
    run("a run to its end");
    take("the slow set's result", 0, twenty_three);
    take("a quick set again", 1, one);
    push("all tags free", slow_set, sizeof slow_set, 0);
}

/* Sixteen sets under way, each fired alone, the last first: a firing touches the tokens of its own tag only. */
static void each_tag_alone(void) {
    begin(&slow_sum);
    for (uint32_t tag = 0; tag < BENCH_TAGS; tag++) {
        push("sixteen sets", tag % 2 == 0 ? quick_set : slow_set, sizeof slow_set, tag);
    }
    for (uint32_t tag = BENCH_TAGS; tag-- > 0;) {
        uint8_t *before = lend(memory, length);
        fire_under(tag, 1);
        size_t own = stretch_at(0, tag), behind = own + PLANE;
        expect("the bytes before its own", (uint32_t)memcmp(memory, before, own), 0);
        expect("and those behind", (uint32_t)memcmp(memory + behind, before + behind, length - behind), 0);
        take("a set fired alone", tag, tag % 2 == 0 ? one : twenty_three);
        free(before);
    }
    push("all tags free", slow_set, sizeof slow_set, 0);
}

/* Sums that nobody waits for hold their tag until a gate has absorbed the last. */
static void tokens_left(void) {
    begin(&slow_sum);
    push("a quick set", quick_set, sizeof quick_set, 0);
    fire_under(0, 0);
    take("before its sums are through", 0, one);
    push("the tag is not free", slow_set, sizeof slow_set, 1);
    no_result("no result under it", 0);
    fire_under(0, 1);
    push("a token absorbed", quick_set, sizeof quick_set, 0);
    run("a run to its end");
    take("the result of the set last pushed", 0, one);
    take("and of the one before it", 1, twenty_three);
    push("free again", slow_set, sizeof slow_set, 0);
    push("free again", slow_set, sizeof slow_set, 1);
}

/* Sixteen tags, and no seventeenth; a set's tag is given again once its result is taken. */
static void seventeen_pushes(void) {
    begin(&lesser_of_two);
    for (uint32_t tag = 0; tag < BENCH_TAGS; tag++) {
        uint8_t set[][BENCH_VALUE_BYTES] = {WHOLE(100), WHOLE(0)};
        set[1][1] = (uint8_t)tag;
        push("sixteen pushes pass", set, sizeof set, tag);
    }
    static const uint8_t set[][BENCH_VALUE_BYTES] = {WHOLE(100), WHOLE(99)};
    uint8_t *before = lend(memory, length);
    refused("the seventeenth", bench_tagged_push(memory, length, set[0], sizeof set), BENCH_NO_TAG, before);
    refused("12 before 37", bench_tagged_push(memory, length, set[0], sizeof set - 1), BENCH_SET, before);
    refused("12 before 37", bench_tagged_push(memory, length, bad_set[0], sizeof bad_set), BENCH_SET, before);
    free(before);
    run("sixteen sets at once");
    expect("37 until one is taken", bench_tagged_push(memory, length, set[0], sizeof set).refusal, BENCH_NO_TAG);
    for (uint32_t tag = BENCH_TAGS; tag-- > 0;) {
        uint8_t wanted[] = WHOLE(0);
        wanted[1] = (uint8_t)tag;
        take("each its own result", tag, wanted);
        push("the tag that was taken", set, sizeof set, tag);
    }
}

static void bare_identifier(void) {
    begin(&identifier);
    no_result("nothing pushed", 0);
    push("an identifier as the formula", five, sizeof five, 0);
    push("another set", one, sizeof one, 1);
    take("its value", 1, one);
    push("free at once", twenty_three, sizeof twenty_three, 1);
    expect("no operator can fire", bench_tagged_run(memory, length, 10).count, 0);
    take("the oldest", 0, five);
    take("the newest", 1, twenty_three);
}

/* A pair of inputs: two results, one token with a tag on each link. */
static void two_results(void) {
    static const uint8_t set[][BENCH_VALUE_BYTES] = {Z_VALUE, TRUE_VALUE};
    uint8_t out[BENCH_RESULT_BYTES];
    begin(&pair);
    push("a pair", set, sizeof set, 0);
    memory[stretch_at(figure(RESULT_LINKS_AT + FIGURE_BYTES), 0)] = 0;
    no_result("a result port empty", 0);
    memory[stretch_at(figure(RESULT_LINKS_AT + FIGURE_BYTES), 0)] = 1;
    memory[TAG_BYTES_AT] = 0;
    no_result("no set untaken", 0);
    expect("a token left on a link", bench_tagged_push(memory, length, set[0], sizeof set).count, 1);
    memory[TAG_BYTES_AT] = 1;
    expect("both values", bench_tagged_take(memory, length, 0, out, sizeof out).count, 2);
    expect("their bytes", (uint32_t)memcmp(out, set, sizeof set), 0);
}

/* Absent tags and operators, and numbers of firings. */
static void numbers(void) {
    static const uint32_t absent[] = {BENCH_TAGS, BENCH_TAGS + 1, 255, 256, UINT32_MAX};
    begin(&slow_sum);
    push("a set", slow_set, sizeof slow_set, 0);
    uint8_t *before = lend(memory, length);
    uint32_t last = operators_of(memory) - 1, able = 0;
    for (size_t i = 0; i < sizeof absent / sizeof absent[0]; i++) {
        no_result("take with an absent tag", absent[i]);
        for (uint32_t operator = 0; operator <= last; operator++) {
            refused("fire with an absent tag", bench_tagged_fire(memory, length, operator, absent[i]), BENCH_NOT_ABLE, before);
        }
        refused("an absent operator", bench_tagged_fire(memory, length, last + 1 + (uint32_t)i, 0), BENCH_NOT_ABLE, before);
    }
    refused("the largest number", bench_tagged_fire(memory, length, UINT32_MAX, 0), BENCH_NOT_ABLE, before);
    for (uint32_t operator = 0; operator <= last; operator++) {
        refused("no token with this tag", bench_tagged_fire(memory, length, operator, BENCH_TAGS - 1), BENCH_NOT_ABLE, before);
        able += bench_tagged_fire(memory, length, operator, 0).refusal == BENCH_ACCEPTED;
        memcpy(memory, before, length);
    }
    expect("some operator can fire", able > 0, 1);
    refused("a run lent 0", bench_tagged_run(memory, length, 0), BENCH_UNFINISHED, before);
    bench_answer three = bench_tagged_run(memory, length, 3);
    expect("36 keeps its firings", three.refusal, BENCH_UNFINISHED);
    expect("their count", three.count, 3);
    expect("some bytes moved", memcmp(memory, before, length) != 0, 1);
    bench_answer rest = bench_tagged_run(memory, length, UINT32_MAX);
    memcpy(memory, before, length);
    expect("the same firings in one run", bench_tagged_run(memory, length, 3 + rest.count).refusal, BENCH_ACCEPTED);
    expect("nothing can fire", bench_tagged_run(memory, length, 0).refusal, BENCH_ACCEPTED);
    free(before);
}

/* A run fires the least-numbered able operator and then its lowest able tag: what single firings in this order leave. */
static void order_of_a_run(void) {
    begin(&slow_sum);
    for (uint32_t tag = 0; tag < 3; tag++) {
        push("three sets", tag == 1 ? quick_set : slow_set, sizeof slow_set, tag);
    }
    fire_under(2, 0);
    for (uint32_t firings = 1; firings < 20; firings++) {
        uint8_t *ran = lend(memory, length);
        expect("one firing", bench_tagged_run(ran, length, 1).count, 1);
        int fired = 0;
        for (uint32_t pair = 0; !fired; pair++) {
            fired = bench_tagged_fire(memory, length, pair / BENCH_TAGS, pair % BENCH_TAGS).refusal == BENCH_ACCEPTED;
        }
        expect("the least operator, then the lowest tag", (uint32_t)memcmp(ran, memory, length), 0);
        free(ran);
    }
}

/* A start that is refused leaves the memory as it was. */
static void start_refused(const char *what, const struct sheet *sheet, size_t bytes, uint32_t refusal, uint32_t row) {
    uint8_t *mem = malloc(BENCH_TAGGED_BYTES), *held = malloc(BENCH_TAGGED_BYTES);
    if (mem == NULL || held == NULL) {
        exit(2);
    }
    memset(mem, UNWRITTEN, BENCH_TAGGED_BYTES);
    memset(held, UNWRITTEN, BENCH_TAGGED_BYTES);
    bench_start_answer answer = start(sheet, mem, bytes);
    expect(what, answer.refusal, refusal);
    expect(what, answer.row, row);
    expect(what, answer.operators + answer.inputs + answer.results, 0);
    expect(what, (uint32_t)memcmp(mem, held, BENCH_TAGGED_BYTES), 0);
    free(mem);
    free(held);
}

/* The sheet with too many operators, some of its ifs left out, beside a loop "for x20 = x19 do if x20 then iter x20 else x0". */
static void loop_and_operators(char *sheet) {
    enum { LEFT_OUT = 3, ITER = 9, FOR = 8, TEST = 19, COUNTER = 20 };
    unsigned row = (unsigned)(too_many_operators(sheet) / ROW_BYTES) - 3 * LEFT_OUT;
    put_row(sheet, row + 1, IDENTIFIER, TEST, 0, 0);
    put_row(sheet, row + 2, IDENTIFIER, COUNTER, 0, 0);
    put_row(sheet, row + 3, IDENTIFIER, COUNTER, 0, 0);
    put_row(sheet, row + 4, ITER, row + 3, 0, 0);
    put_row(sheet, row + 5, IDENTIFIER, 0, 0, 0);
    put_row(sheet, row + 6, IF, row + 2, row + 4, row + 5);
    snprintf(sheet + ROW_BYTES * (size_t)(row + 6), ROW_BYTES + 1, "%6d%6d%6d%6u%6u\n", FOR, COUNTER, 1, row + 1, row + 6);
    put_row(sheet, row + 8, PAIR, row, row + 7, 0);
    sheet[ROW_BYTES * (size_t)(row + 8)] = '\0';
}

static void starts(void) {
    size_t enough = BENCH_TAGGED_BYTES;
    for (size_t i = 0; i < sizeof refused_sheets / sizeof refused_sheets[0]; i++) {
        struct sheet sheet = {refused_sheets[i].rows, "x"};
        start_refused(refused_sheets[i].what, &sheet, enough, refused_sheets[i].refusal, refused_sheets[i].row);
        start_refused("11 before it", &sheet, enough - 1, BENCH_MEMORY, 0);
    }
    static char rows[(MOST_ROWS + 1) * ROW_BYTES + 1];
    too_many_rows(rows);
    start_refused("too many rows", &(struct sheet){rows, "x"}, enough, BENCH_ROWS, 0);
    memset(rows, 0, sizeof rows);
    too_many_operators(rows);
    start_refused("too many operators", &(struct sheet){rows, too_many_operators_kinds}, enough, BENCH_OPERATORS, 0);
    memset(rows, 0, sizeof rows);
    loop_and_operators(rows);
    start_refused("10 before 19", &(struct sheet){rows, too_many_operators_kinds}, enough, BENCH_OPERATORS, 0);
    start_refused("17 before 19", &(struct sheet){factorial.rows, "WW\n"}, enough, BENCH_KINDS_LINE, 0);
    start_refused("18 before 19", &(struct sheet){factorial.rows, "T\n"}, enough, BENCH_KINDS, 7);
    start_refused("a sheet with a for", &factorial, enough, BENCH_LOOP, 0);
    start_refused("11 before 19", &factorial, enough - 1, BENCH_MEMORY, 0);
    start_refused("no memory", &identifier, 0, BENCH_MEMORY, 0);
    begin(&lesser_of_two);
    bench_start_answer again = start(&lesser_of_two, memory, length);
    expect("its operators", again.operators, 8);
    expect("its inputs", again.inputs, 2);
    expect("its results", again.results, 1);
}

/* Every call with memory of lengths about its need, each a stretch of its own. */
static void lengths(void) {
    static const size_t below[] = {1, 2, 16, 17, 1000};
    uint8_t out[BENCH_RESULT_BYTES + 1];
    begin(&identifier);
    push("a set", five, sizeof five, 0);
    uint8_t *whole = memory;
    for (size_t i = 0; i < sizeof below / sizeof below[0]; i++) {
        length = BENCH_TAGGED_BYTES - below[i];
        memory = lend(whole, length);
        all_refuse("some bytes too few", BENCH_MEMORY);
        free(memory);
    }
    for (length = 0; length < 10; length++) {
        memory = lend(whole, length);
        all_refuse("some bytes only", BENCH_MEMORY);
        free(memory);
    }
    for (uint32_t capacity = 1; capacity <= MOST_CAPACITY; capacity++) {
        length = BENCH_MACHINE_BYTES(capacity);
        memory = lend(whole, length);
        all_refuse("the bytes of a first machine", BENCH_MEMORY);
        free(memory);
    }
    memory = whole;
    length = BENCH_TAGGED_BYTES;
    for (size_t room = 0; room <= sizeof out; room++) {
        uint8_t *lent = lend(memory, length), *place = lend(out, room);
        expect("a result's room", bench_tagged_take(lent, length, 0, place, room).refusal, room < BENCH_RESULT_BYTES ? BENCH_MEMORY : BENCH_ACCEPTED);
        expect("taken or not", lent[TAG_BYTES_AT], room < BENCH_RESULT_BYTES);
        free(place);
        free(lent);
    }
    memory[TAG_BYTES_AT] = 2;
    expect("take, 11 before 31", bench_tagged_take(memory, length, 0, out, BENCH_RESULT_BYTES - 1).refusal, BENCH_MEMORY);
    expect("take, 31 before 38", bench_tagged_take(memory, length, 1, out, sizeof out).refusal, BENCH_ALTERED);
    expect("push, 31 before 12", bench_tagged_push(memory, length, five, 1).refusal, BENCH_ALTERED);
    expect("fire, 31 before 34", bench_tagged_fire(memory, length, 0, 0).refusal, BENCH_ALTERED);
}

/* The first machine's calls on this memory: 31, every byte left, a refused push counted. */
static void first_machines_calls(const char *what) {
    bench_tally tally = {1, 2, 3};
    uint8_t *before = lend(memory, length), out[BENCH_RESULT_BYTES] = {UNWRITTEN};
    refused(what, bench_push(memory, length, five, sizeof five, &tally), BENCH_ALTERED, before);
    refused(what, bench_push_tray(memory, length, five, sizeof five, 1, &tally), BENCH_ALTERED, before);
    refused(what, bench_fire(memory, length, 0, &tally), BENCH_ALTERED, before);
    refused(what, bench_run(memory, length, 10, &tally), BENCH_ALTERED, before);
    refused(what, bench_take(memory, length, out, sizeof out, &tally), BENCH_ALTERED, before);
    bench_rounds_answer rounds = bench_run_rounds(memory, length, 10, &tally);
    expect(what, rounds.refusal, BENCH_ALTERED);
    expect(what, rounds.rounds == 0 && rounds.firings == 0, 1);
    expect(what, memcmp(memory, before, length) == 0 && out[0] == UNWRITTEN, 1);
    expect(what, tally.firings == 1 && tally.takes == 2 && tally.refused == 3 + 2, 1);
    free(before);
}

/* Memory of one machine handed to the other's calls. */
static void other_machine(void) {
    begin(&identifier);
    first_machines_calls("an empty machine with tags");
    push("a set", five, sizeof five, 0);
    first_machines_calls("a machine with tags and a token");
    bench_tally tally;
    for (uint32_t capacity = 1; capacity <= MOST_CAPACITY; capacity++) {
        begin(&identifier);
        const uint8_t *rows = (const uint8_t *)identifier.rows, *kinds = (const uint8_t *)identifier.kinds;
        size_t row_bytes = strlen(identifier.rows), kind_bytes = strlen(identifier.kinds);
        expect("a first machine", bench_start(rows, row_bytes, kinds, kind_bytes, capacity, memory, length, &tally).refusal, BENCH_ACCEPTED);
        expect("its push", bench_push(memory, length, five, sizeof five, &tally).refusal, BENCH_ACCEPTED);
        all_refuse("a first machine in as many bytes", BENCH_ALTERED);
        length = BENCH_MACHINE_BYTES(capacity);
        all_refuse("a first machine in its own", BENCH_MEMORY);
    }
}

/* A stretch under a tag: its count, and its token where there is one. */
static void stretch_of(unsigned link, uint32_t tag) {
    size_t at = stretch_at(link, tag);
    uint8_t held[STRETCH];
    memcpy(held, memory + at, STRETCH);
    memcpy(memory + at + 1, five, sizeof five);
    bad_byte("two tokens of a tag", at, 2);
    bad_byte("255 tokens", at, UINT8_MAX);
    good_byte("one token", at, 1);
    memory[at] = 1;
    for (size_t b = 0; b < sizeof no_values / sizeof no_values[0]; b++) {
        memcpy(memory + at + 1, no_values[b], BENCH_VALUE_BYTES);
        all_refuse("a token that is no value", BENCH_ALTERED);
    }
    errs_at(at + 1);
    memory[at] = 0;
    memset(memory + at + 1, 0xee, BENCH_VALUE_BYTES);
    stands("a free place may hold anything");
    memcpy(memory + at, held, STRETCH);
}

/* All stretches of the first and the last tag, one of each other. */
static void stretches(void) {
    unsigned links = figure(LINKS_AT);
    for (uint32_t tag = 0; tag < BENCH_TAGS; tag++) {
        for (unsigned link = 0; link < links; link++) {
            if (tag == 0 || tag == BENCH_TAGS - 1 || link == tag % links) {
                stretch_of(link, tag);
            }
            bad_byte("two tokens of a tag", stretch_at(link, tag), 2);
        }
    }
    /* behind the last link of the graph and the last operator anything may stand, under every tag */
    for (uint32_t tag = 0; tag < BENCH_TAGS; tag++) {
        memset(memory + stretch_at(links, tag), 0xee, stretch_at(0, tag + 1) - stretch_at(links, tag));
    }
    memset(memory + RECORDS_AT + RECORD_BYTES * (size_t)figure(OPERATORS_AT), 0xee, RECORD_BYTES);
    stands("bytes that the graph does not use");
}

static void altered(void) {
    begin(&slow_sum);
    push("a set", slow_set, sizeof slow_set, 0);
    graph_header();
    static const uint8_t others[] = {0, 1, 2, MOST_CAPACITY, MARK + 1, UINT8_MAX};
    for (size_t i = 0; i < sizeof others; i++) {
        bad_byte("another mark", CAPACITY_AT, others[i]);
    }
    bad_byte("sets untaken", UNTAKEN_AT, 1);
    bad_byte("sets untaken", UNTAKEN_AT, UINT8_MAX);
    bad_byte("another letter", INPUT_KINDS_AT, 'w');
    good_byte("a letter", INPUT_KINDS_AT, BENCH_KIND_REAL);
    for (uint32_t tag = 0; tag < BENCH_TAGS; tag++) {
        bad_byte("a tag's byte", TAG_BYTES_AT + tag, 2);
        bad_byte("a tag's byte", TAG_BYTES_AT + tag, UINT8_MAX);
        good_byte("a tag's byte", TAG_BYTES_AT + tag, tag != 0);
    }
    operators(LAST_LOOPLESS_KIND);
    stretches();
}

int main(void) {
    overtaking();
    each_tag_alone();
    tokens_left();
    seventeen_pushes();
    bare_identifier();
    two_results();
    numbers();
    order_of_a_run();
    starts();
    lengths();
    other_machine();
    altered();
    free(memory);
    return tell();
}
