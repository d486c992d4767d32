/*
 * Every figure of a machine's graph set to what is out of its range, for the C programs that test 31. Behind the header of the machine that is tested, which has
 * `memory`, `all_refuse`, `bad_byte` and `stands`. The layout is docs/MEMORY.md's.
 */
#ifndef FIGURES_H
#define FIGURES_H

#include "layout.h"

/* Bounds of the figures; a link's figure is two bytes long, a record sixteen, with its links from its third byte on. */
enum { MOST_LINKS = 3105, MOST_INPUTS = 32, MOST_RESULTS = 16 };
enum { NO_LINK = 65535, FIGURE_BYTES = 2, RECORD_BYTES = 16, PORTS_AT = 2, PORTS = 6, INPUT_PORTS = 3 };

/* The kinds by which something differs: 1 to 9 have two inputs; 10, 11, constants and copies one. */
enum { LAST_OF_TWO = 9, CONSTANT = 12, COPY = 13, M = 16, IC = 18, FM = 19, FS = 20, LAST_KIND = 20 };

static const uint8_t a_number[] = WHOLE(5);

/* What is no value and no register's 'none' either. */
static const uint8_t no_values[][BENCH_VALUE_BYTES] = {
    {BENCH_REAL + 1, 0, 0, 0, 0}, {BENCH_TRUTH, 2, 0, 0, 0}, {BENCH_TRUTH, 0, 1, 0, 0}, {BENCH_ERR, BENCH_ERR_OUT_OF_RANGE + 1, 0, 0, 0}, {0, 1, 0, 0, 0},
    {BENCH_REAL, 0, 0, 0x80, 0x7f}, {BENCH_REAL, 0, 0, 0x80, 0xff}};

static unsigned figure(size_t at) {
    return memory[at] + 256u * memory[at + 1];
}

static void put_figure(size_t at, unsigned x) {
    memory[at] = (uint8_t)(x % 256);
    memory[at + 1] = (uint8_t)(x / 256);
}

static void bad_figure(const char *what, size_t at, unsigned value) {
    unsigned held = figure(at);
    put_figure(at, value);
    all_refuse(what, BENCH_ALTERED);
    put_figure(at, held);
}

/* The figures before the operators. */
static void graph_header(void) {
    unsigned links = figure(LINKS_AT), trigger = figure(TRIGGER_LINK_AT);
    bad_byte("no results", RESULTS_AT, 0);
    bad_byte("too many results", RESULTS_AT, MOST_RESULTS + 1);
    bad_byte("too many inputs", INPUTS_AT, MOST_INPUTS + 1);
    bad_figure("too many operators", OPERATORS_AT, MOST_OPERATORS + 1);
    bad_figure("too many links", LINKS_AT, MOST_LINKS + 1);
    bad_figure("trigger's link past the last", TRIGGER_LINK_AT, links);
    bad_figure("an input without a link", INPUT_LINKS_AT, NO_LINK);
    bad_figure("an input's link past the last", INPUT_LINKS_AT, links);
    bad_figure("an input's link that is the trigger's", INPUT_LINKS_AT, trigger);
    bad_figure("a result without a link", RESULT_LINKS_AT, NO_LINK);
    bad_figure("a result's link past the last", RESULT_LINKS_AT, links);
    put_figure(TRIGGER_LINK_AT, NO_LINK);
    stands("no trigger");
    put_figure(TRIGGER_LINK_AT, trigger);
}

static unsigned inputs_of(unsigned kind) {
    if (kind == M || kind == IC || kind == FM) {
        return 3;
    }
    return kind > LAST_OF_TWO && kind <= COPY ? 1 : 2;
}

static unsigned outputs_of(unsigned kind) {
    return kind == COPY ? 2 : kind == IC ? 3 : 1;
}

/* Whether a kind has a port, and whether that port must have a link: IC's second output may lack one. */
static int has_port(unsigned kind, unsigned port) {
    return port < INPUT_PORTS ? port < inputs_of(kind) : port - INPUT_PORTS < outputs_of(kind);
}

static int wants_link(unsigned kind, unsigned port) {
    return has_port(kind, port) && !(kind == IC && port == INPUT_PORTS + 1);
}

static void port_of(size_t record, unsigned port) {
    unsigned links = figure(LINKS_AT), kind = memory[record];
    size_t ports = record + PORTS_AT, name = ports + FIGURE_BYTES * port;
    bad_figure("a port's link past the last", name, links);
    bad_figure("a port's link one below none", name, NO_LINK - 1);
    if (wants_link(kind, port)) {
        bad_figure("a port that is missing", name, NO_LINK);
    }
    if (!has_port(kind, port)) {
        bad_figure("a port that the kind has not", name, 0);
        return;
    }
    for (unsigned other = 0; other < port; other++) {
        unsigned link = figure(ports + FIGURE_BYTES * other);
        if (link != NO_LINK) {
            bad_figure("a link named twice by one operator", name, link);
        }
    }
}

static void register_of(unsigned kind, size_t at) {
    uint8_t held[BENCH_VALUE_BYTES];
    memcpy(held, memory + at, sizeof held);
    for (size_t b = 0; b < sizeof no_values / sizeof no_values[0]; b++) {
        memcpy(memory + at, no_values[b], BENCH_VALUE_BYTES);
        all_refuse("a register that is no value", BENCH_ALTERED);
    }
    memcpy(memory + at, a_number, sizeof a_number);
    if (kind == CONSTANT || kind == FM || kind == FS) {
        stands("a register that is a value");
    } else {
        all_refuse("a register that the kind has not", BENCH_ALTERED);
    }
    memset(memory + at, 0, BENCH_VALUE_BYTES);
    if (kind == CONSTANT) {
        all_refuse("a constant without a value", BENCH_ALTERED);
    } else {
        stands("a register before the first firing");
    }
    memcpy(memory + at, held, sizeof held);
}

/* Each operator of a machine whose kinds end with this one. */
static void operators(uint8_t last_kind) {
    unsigned count = figure(OPERATORS_AT);
    for (unsigned i = 0; i < count; i++) {
        size_t record = RECORDS_AT + RECORD_BYTES * i;
        bad_byte("kind 0", record, 0);
        bad_byte("a kind past the last", record, (uint8_t)(last_kind + 1));
        bad_byte("the largest kind", record, UINT8_MAX);
        for (unsigned port = 0; port < PORTS; port++) {
            port_of(record, port);
        }
        register_of(memory[record], REGISTERS_AT + BENCH_VALUE_BYTES * i);
    }
}

/* A waiting token that is an err of each reason, and of none. */
static void errs_at(size_t token) {
    uint8_t held[BENCH_VALUE_BYTES];
    memcpy(held, memory + token, sizeof held);
    for (size_t b = 0; b < sizeof no_reasons / sizeof no_reasons[0]; b++) {
        memcpy(memory + token, no_reasons[b], BENCH_VALUE_BYTES);
        all_refuse("a token that is an err of no reason", BENCH_ALTERED);
    }
    memset(memory + token, 0, BENCH_VALUE_BYTES);
    memory[token] = BENCH_ERR;
    for (uint8_t reason = BENCH_ERR_OTHER; reason <= BENCH_ERR_OUT_OF_RANGE; reason++) {
        memory[token + 1] = reason;
        stands("a token that is an err");
    }
    memcpy(memory + token, held, sizeof held);
}

#endif
