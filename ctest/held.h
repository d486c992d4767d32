/* Memory of which every byte holds the same before a call, for the C programs that look at what a call leaves alone. */
#ifndef HELD_H
#define HELD_H

#include <stdlib.h>
#include <string.h>

#include "bench.h"

enum { HELD = 0xa5 };

/* So many bytes, each of them HELD. */
static inline uint8_t *hold(size_t bytes) {
    uint8_t *memory = malloc(bytes);
    if (memory == NULL && bytes > 0) {
        exit(2);
    }
    if (bytes > 0) {
        memset(memory, HELD, bytes);
    }
    return memory;
}

static inline int all_held(const uint8_t *from, const uint8_t *end) {
    while (from < end && *from == HELD) {
        from++;
    }
    return from == end;
}

#endif
