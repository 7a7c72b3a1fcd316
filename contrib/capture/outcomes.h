/* The distinct outcomes of a program: what its loads and swaps read, and how often. */
#ifndef CAPTURE_OUTCOMES_H
#define CAPTURE_OUTCOMES_H

#include <stdbool.h>
#include <stddef.h>
#include <stdint.h>

struct outcomes {
    size_t reads; /* values of an outcome */
    size_t most;  /* no more outcomes than this are kept */
    size_t count;
    uint64_t *values; /* of outcome i from reads * i on */
    uint64_t *times;  /* how often outcome i came */
    size_t room;
    size_t *slots; /* open addressing: 1 + an outcome, or 0 */
    size_t slot_count;
    uint64_t left_out; /* how many runs had an outcome that was not kept */
};

/* False where memory ran out. */
bool new_outcomes(struct outcomes *outcomes, size_t reads, size_t most);
bool add_outcome(struct outcomes *outcomes, const uint64_t *values);
void free_outcomes(struct outcomes *outcomes);

#endif
