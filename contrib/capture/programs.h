/* Programs of loads, stores, swaps and barriers, and the traces that they leave. docs/use/FORMATS.md has their texts. */
#ifndef CAPTURE_PROGRAMS_H
#define CAPTURE_PROGRAMS_H

#include <stdbool.h>
#include <stddef.h>
#include <stdint.h>
#include <stdio.h>

enum { MAX_PROCESSORS = 16, ADDRESSES = 256, MAX_EVENTS_1 = 2000, MAX_EVENTS_2 = 8000 };

enum kind { LOAD, STORE, SWAP, MEMBAR, STBAR };

struct operation {
    enum kind kind;
    unsigned address;
    uint64_t value; /* of a store or a swap */
};

struct processor {
    struct operation *operations;
    size_t count;
    size_t reads; /* of its operations, how many load: loads and swaps */
};

struct program {
    int version; /* 1 or 2 */
    bool pso;
    bool has_first[ADDRESSES];
    uint64_t first[ADDRESSES]; /* 0 where the text says nothing */
    bool is_used[ADDRESSES];   /* whether an operation is at the address */
    int processors;
    struct processor processor[MAX_PROCESSORS];
    size_t reads; /* of all processors */
};

/* Reads the next text of a program. Returns 1; 0 where there is none; or -1 after a line on standard error that says what is
   wrong, where `number` is that of the text in the input. */
int read_program(FILE *input, size_t number, struct program *program);

/* Prints the trace of a run in which the loads and swaps, processor by processor, read these values. */
void print_trace(FILE *output, const struct program *program, const uint64_t *read);

void free_program(struct program *program);

#endif
