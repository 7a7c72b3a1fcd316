/* Straight machine code for the operations of one processor. */
#ifndef CAPTURE_CODE_H
#define CAPTURE_CODE_H

#include "programs.h"

/* Deviations made on purpose, as negative controls. */
enum variant { EXACT, NO_FENCE, SWAP_IN_TWO, STORES_EXCHANGED, LOADS_EXCHANGED, NON_TEMPORAL };

/* Runs the operations of a processor at these locations: address a is `stride` bytes times a from `memory` on. What the loads
   and swaps read is in `read` when it returns, in program order. */
typedef void (*code)(char *memory, uint64_t *read);

struct codes {
    code of[MAX_PROCESSORS]; /* NULL where no code can be made: then run_by_table does it */
    void *pages;
    size_t bytes;
};

/* The operations in the order in which a variant issues them; a copy, whose `place` says where each was. */
struct issued {
    struct operation *operations;
    size_t *place; /* of what a load or swap reads, in the list of what the processor reads */
    size_t count;
};

struct issued issue(const struct processor *processor, enum variant variant);
void free_issued(struct issued *issued);

/* Makes the code of all processors in memory that can be run and, once it is, no longer be written. */
struct codes make_codes(const struct issued *issued, int processors, size_t stride, enum variant variant);
void free_codes(struct codes *codes);

/* The same by a loop over a table, where the system lets no code be made. */
void run_by_table(const struct issued *issued, char *memory, size_t stride, enum variant variant, uint64_t *read);

#endif
