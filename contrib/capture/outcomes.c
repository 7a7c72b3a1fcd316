#include "outcomes.h"

#include <stdlib.h>
#include <string.h>

static uint64_t hash_of(const uint64_t *values, size_t count) {
    uint64_t hash = 0x9E3779B97F4A7C15u;
    for (size_t i = 0; i < count; i++) {
        hash = (hash ^ values[i]) * 0xBF58476D1CE4E5B9u;
        hash ^= hash >> 29;
    }
    return hash;
}

bool new_outcomes(struct outcomes *outcomes, size_t reads, size_t most) {
    memset(outcomes, 0, sizeof *outcomes);
    outcomes->reads = reads;
    outcomes->most = most;
    outcomes->slot_count = 64;
    outcomes->slots = calloc(outcomes->slot_count, sizeof *outcomes->slots);
    return outcomes->slots != NULL;
}

/* The slot that has the outcome, or the free one where it belongs. */
static size_t slot_of(const struct outcomes *outcomes, const uint64_t *values) {
    size_t mask = outcomes->slot_count - 1, at = (size_t)hash_of(values, outcomes->reads) & mask;
    while (outcomes->slots[at]) {
        const uint64_t *kept = outcomes->values + outcomes->reads * (outcomes->slots[at] - 1);
        if (memcmp(kept, values, outcomes->reads * sizeof *values) == 0) break;
        at = (at + 1) & mask;
    }
    return at;
}

static bool grow_slots(struct outcomes *outcomes) {
    size_t *old = outcomes->slots;
    outcomes->slot_count *= 2;
    outcomes->slots = calloc(outcomes->slot_count, sizeof *outcomes->slots);
    if (!outcomes->slots) {
        outcomes->slots = old;
        return false;
    }
    for (size_t i = 0; i < outcomes->count; i++)
        outcomes->slots[slot_of(outcomes, outcomes->values + outcomes->reads * i)] = i + 1;
    free(old);
    return true;
}

static bool grow_values(struct outcomes *outcomes) {
    size_t room = outcomes->room ? 2 * outcomes->room : 64, reads = outcomes->reads ? outcomes->reads : 1;
    uint64_t *values = realloc(outcomes->values, room * reads * sizeof *values);
    if (!values) return false;
    outcomes->values = values;
    uint64_t *times = realloc(outcomes->times, room * sizeof *times);
    if (!times) return false;
    outcomes->times = times;
    outcomes->room = room;
    return true;
}

bool add_outcome(struct outcomes *outcomes, const uint64_t *values) {
    size_t slot = slot_of(outcomes, values);
    if (outcomes->slots[slot]) {
        outcomes->times[outcomes->slots[slot] - 1]++;
        return true;
    }
    if (outcomes->count == outcomes->most) {
        outcomes->left_out++;
        return true;
    }
    if (outcomes->count == outcomes->room && !grow_values(outcomes)) return false;
    if (outcomes->reads) memcpy(outcomes->values + outcomes->reads * outcomes->count, values, outcomes->reads * sizeof *values);
    outcomes->times[outcomes->count] = 1;
    outcomes->slots[slot] = ++outcomes->count;
    return 2 * outcomes->count < outcomes->slot_count || grow_slots(outcomes);
}

void free_outcomes(struct outcomes *outcomes) {
    free(outcomes->values);
    free(outcomes->times);
    free(outcomes->slots);
    memset(outcomes, 0, sizeof *outcomes);
}
