/* Where the figures of a machine's memory stand (docs/MEMORY.md), for the C programs that look at its bytes. */
#ifndef LAYOUT_H
#define LAYOUT_H

#include "check.h"

enum {
    CAPACITY_AT = 0,
    OPERATORS_AT = 1,
    LINKS_AT = 3,
    INPUTS_AT = 5,
    RESULTS_AT = 6,
    UNTAKEN_AT = 7,
    TRIGGER_LINK_AT = 8,
    INPUT_LINKS_AT = 10,
    RESULT_LINKS_AT = 74,
    INPUT_KINDS_AT = 106,
    RECORDS_AT = 256,
    REGISTERS_AT = 16640,
    STRETCHES_AT = 21760
};

enum { MOST_UNTAKEN = 16, MOST_CAPACITY = 16, MOST_OPERATORS = 1024 };

static inline uint32_t operators_of(const uint8_t *mem) {
    return mem[OPERATORS_AT] + 256u * mem[OPERATORS_AT + 1];
}

#endif
