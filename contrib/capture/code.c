#define _GNU_SOURCE
#include "code.h"

#include <stdatomic.h>
#include <stdlib.h>
#include <string.h>
#include <sys/mman.h>

static void *room(size_t bytes) {
    void *made = malloc(bytes ? bytes : 1);
    if (!made) {
        fputs("capture: out of memory\n", stderr);
        exit(4);
    }
    return made;
}

static bool is_read(enum kind kind) { return kind == LOAD || kind == SWAP; }

/* Exchanges each two neighbours of this kind at different addresses, from the front. */
static void exchange(struct issued *issued, enum kind kind) {
    for (size_t i = 0; i + 1 < issued->count; i++) {
        struct operation *one = &issued->operations[i], *next = one + 1;
        if (one->kind != kind || next->kind != kind || one->address == next->address) continue;
        struct operation kept = *one;
        size_t place = issued->place[i];
        *one = *next;
        *next = kept;
        issued->place[i] = issued->place[i + 1];
        issued->place[i + 1] = place;
        i++;
    }
}

struct issued issue(const struct processor *processor, enum variant variant) {
    struct issued issued = {.count = 0};
    size_t reads = 0;
    issued.operations = room(processor->count * sizeof *issued.operations);
    issued.place = room(processor->count * sizeof *issued.place);
    for (size_t i = 0; i < processor->count; i++) {
        struct operation operation = processor->operations[i];
        if (operation.kind == MEMBAR && variant == NO_FENCE) continue;
        issued.operations[issued.count] = operation;
        issued.place[issued.count++] = is_read(operation.kind) ? reads++ : 0;
    }
    if (variant == STORES_EXCHANGED) exchange(&issued, STORE);
    if (variant == LOADS_EXCHANGED) exchange(&issued, LOAD);
    return issued;
}

void free_issued(struct issued *issued) {
    free(issued->operations);
    free(issued->place);
    memset(issued, 0, sizeof *issued);
}

/* ---- code */

struct text {
    unsigned char *bytes; /* NULL while the length alone is counted */
    size_t length;
};

#if defined __x86_64__

static void put(struct text *text, const unsigned char *bytes, size_t count) {
    if (text->bytes) memcpy(text->bytes + text->length, bytes, count);
    text->length += count;
}

#define PUT(...) put(text, (const unsigned char[]){__VA_ARGS__}, sizeof(unsigned char[]){__VA_ARGS__})

static void put_offset(struct text *text, size_t offset) {
    uint32_t four = (uint32_t)offset;
    put(text, (const unsigned char *)&four, 4);
}

/* rdi has the memory, rsi the list of what is read, rax is for moves. What is read stays in registers as far as they go, so
   that keeping it is no store: six general ones, then sixteen wide ones; what follows goes to the list at once. */
enum { GENERAL = 6, WIDE = 16, MAX_CODED_READS = 8000 };
static const unsigned char general[GENERAL] = {1, 2, 8, 9, 10, 11}; /* rcx, rdx, r8 to r11 */

/* rax to where the read of this place is kept */
static void put_keep(struct text *text, size_t place) {
    if (place < GENERAL) {
        unsigned r = general[place];
        PUT(0x48 | (r >> 3), 0x89, 0xC0 | (r & 7));
    } else if (place < GENERAL + WIDE) {
        unsigned x = (unsigned)place - GENERAL;
        PUT(0x66, 0x48 | (x >> 3 << 2), 0x0F, 0x6E, 0xC0 | ((x & 7) << 3));
    } else {
        PUT(0x48, 0x89, 0x86);
        put_offset(text, 8 * place);
    }
}

static void put_load(struct text *text, size_t offset, size_t place) {
    if (place < GENERAL) {
        unsigned r = general[place];
        PUT(0x48 | (r >> 3 << 2), 0x8B, 0x87 | ((r & 7) << 3));
        put_offset(text, offset);
    } else if (place < GENERAL + WIDE) {
        unsigned x = (unsigned)place - GENERAL;
        PUT(0xF3, 0x40 | (x >> 3 << 2), 0x0F, 0x7E, 0x87 | ((x & 7) << 3));
        put_offset(text, offset);
    } else {
        PUT(0x48, 0x8B, 0x87);
        put_offset(text, offset);
        put_keep(text, place);
    }
}

static void put_value(struct text *text, uint64_t value) {
    PUT(0x48, 0xB8);
    put(text, (const unsigned char *)&value, 8);
}

static void put_store(struct text *text, size_t offset, uint64_t value, enum variant variant) {
    put_value(text, value);
    if (variant == NON_TEMPORAL) PUT(0x48, 0x0F, 0xC3, 0x87);
    else PUT(0x48, 0x89, 0x87);
    put_offset(text, offset);
}

static void put_swap(struct text *text, size_t offset, uint64_t value, size_t place, enum variant variant) {
    if (variant == SWAP_IN_TWO) {
        put_load(text, offset, place);
        put_store(text, offset, value, EXACT);
        return;
    }
    put_value(text, value);
    PUT(0x48, 0x87, 0x87);
    put_offset(text, offset);
    put_keep(text, place);
}

static void put_operation(struct text *text, struct operation operation, size_t place, size_t stride, enum variant variant) {
    size_t offset = operation.address * stride;
    switch (operation.kind) {
    case LOAD: put_load(text, offset, place); break;
    case STORE: put_store(text, offset, operation.value, variant); break;
    case SWAP: put_swap(text, offset, operation.value, place, variant); break;
    case MEMBAR: PUT(0x0F, 0xAE, 0xF0); break;
    case STBAR: break; /* x86 keeps stores in order */
    }
}

/* What was read goes from the registers to the list. */
static void put_end(struct text *text, size_t reads) {
    for (size_t place = 0; place < reads && place < GENERAL + WIDE; place++) {
        if (place < GENERAL) {
            unsigned r = general[place];
            PUT(0x48 | (r >> 3 << 2), 0x89, 0x86 | ((r & 7) << 3));
        } else {
            unsigned x = (unsigned)place - GENERAL;
            PUT(0x66, 0x40 | (x >> 3 << 2), 0x0F, 0xD6, 0x86 | ((x & 7) << 3));
        }
        put_offset(text, 8 * place);
    }
    PUT(0xC3);
}

#elif defined __aarch64__

static void put_word(struct text *text, uint32_t word) {
    if (text->bytes) memcpy(text->bytes + text->length, &word, 4);
    text->length += 4;
}

/* x0 has the memory, x1 the list, x2 a value, x3 an address, w16 whether an exclusive store failed, x17 what it loaded. What is
   read stays in x4 to x15 and then d0 to d7 and d16 to d31; what follows goes to the list at once. */
enum { GENERAL = 12, WIDE = 24, MAX_CODED_READS = 4096 };

static uint32_t wide(size_t place) {
    uint32_t d = (uint32_t)place - GENERAL;
    return d < 8 ? d : d + 8;
}

/* x3 to x0 and an offset below 2 to the 24th */
static void put_address(struct text *text, size_t offset) {
    put_word(text, 0x91400000u | (uint32_t)(offset >> 12) << 10 | 0u << 5 | 3);
    put_word(text, 0x91000000u | (uint32_t)(offset & 0xFFF) << 10 | 3u << 5 | 3);
}

/* x17 to where the read of this place is kept */
static void put_keep(struct text *text, size_t place) {
    if (place < GENERAL) put_word(text, 0xAA1103E0u | (uint32_t)(4 + place));
    else if (place < GENERAL + WIDE) put_word(text, 0x9E670000u | 17u << 5 | wide(place));
    else put_word(text, 0xF9000000u | (uint32_t)place << 10 | 1u << 5 | 17);
}

static void put_load(struct text *text, size_t offset, size_t place) {
    put_address(text, offset);
    if (place < GENERAL) put_word(text, 0xF9400000u | 3u << 5 | (uint32_t)(4 + place));
    else if (place < GENERAL + WIDE) put_word(text, 0xFD400000u | 3u << 5 | wide(place));
    else {
        put_word(text, 0xF9400000u | 3u << 5 | 17);
        put_keep(text, place);
    }
}

static void put_value(struct text *text, uint64_t value) {
    put_word(text, 0xD2800000u | (uint32_t)(value & 0xFFFF) << 5 | 2);
    for (uint32_t part = 1; part < 4; part++)
        put_word(text, 0xF2800000u | part << 21 | (uint32_t)(value >> (16 * part) & 0xFFFF) << 5 | 2);
}

static void put_store(struct text *text, size_t offset, uint64_t value, enum variant variant) {
    (void)variant; /* non-temporal stores of 8 bytes are x86's alone */
    put_value(text, value);
    put_address(text, offset);
    put_word(text, 0xF9000000u | 3u << 5 | 2);
}

static void put_swap(struct text *text, size_t offset, uint64_t value, size_t place, enum variant variant) {
    if (variant == SWAP_IN_TWO) {
        put_load(text, offset, place);
        put_store(text, offset, value, EXACT);
        return;
    }
    put_value(text, value);
    put_address(text, offset);
    put_word(text, 0xC85FFC71u); /* ldaxr x17, [x3] */
    put_word(text, 0xC810FC62u); /* stlxr w16, x2, [x3] */
    put_word(text, 0x35FFFFD0u); /* cbnz w16, back to the first */
    put_keep(text, place);
}

static void put_operation(struct text *text, struct operation operation, size_t place, size_t stride, enum variant variant) {
    size_t offset = operation.address * stride;
    switch (operation.kind) {
    case LOAD: put_load(text, offset, place); break;
    case STORE: put_store(text, offset, operation.value, variant); break;
    case SWAP: put_swap(text, offset, operation.value, place, variant); break;
    case MEMBAR: put_word(text, 0xD5033BBFu); break; /* dmb ish */
    case STBAR: put_word(text, 0xD5033ABFu); break;  /* dmb ishst */
    }
}

static void put_end(struct text *text, size_t reads) {
    for (size_t place = 0; place < reads && place < GENERAL + WIDE; place++) {
        if (place < GENERAL) put_word(text, 0xF9000000u | (uint32_t)place << 10 | 1u << 5 | (uint32_t)(4 + place));
        else put_word(text, 0xFD000000u | (uint32_t)place << 10 | 1u << 5 | wide(place));
    }
    put_word(text, 0xD65F03C0u); /* ret */
}

#else

static void put_operation(struct text *text, struct operation operation, size_t place, size_t stride, enum variant variant) {
    (void)text, (void)operation, (void)place, (void)stride, (void)variant;
}
static void put_end(struct text *text, size_t reads) { (void)text, (void)reads; }
enum { MAX_CODED_READS = 0 };

#endif

static size_t count_reads(const struct issued *issued) {
    size_t reads = 0;
    for (size_t i = 0; i < issued->count; i++) reads += is_read(issued->operations[i].kind);
    return reads;
}

static size_t put_processor(struct text *text, const struct issued *issued, size_t stride, enum variant variant) {
    size_t start = text->length;
    for (size_t i = 0; i < issued->count; i++)
        put_operation(text, issued->operations[i], issued->place[i], stride, variant);
    put_end(text, count_reads(issued));
    text->length = (text->length + 63) & ~(size_t)63;
    return start;
}

struct codes make_codes(const struct issued *issued, int processors, size_t stride, enum variant variant) {
    struct codes codes = {.pages = NULL};
    struct text text = {.bytes = NULL};
    size_t start[MAX_PROCESSORS];
    for (int p = 0; p < processors; p++) {
        if (count_reads(&issued[p]) >= MAX_CODED_READS) return codes;
        put_processor(&text, &issued[p], stride, variant);
    }
    codes.bytes = text.length + 64;
    void *pages = mmap(NULL, codes.bytes, PROT_READ | PROT_WRITE, MAP_PRIVATE | MAP_ANONYMOUS, -1, 0);
    if (pages == MAP_FAILED) return codes;
    text = (struct text){.bytes = pages};
    for (int p = 0; p < processors; p++) start[p] = put_processor(&text, &issued[p], stride, variant);
    __builtin___clear_cache((char *)pages, (char *)pages + codes.bytes);
    if (mprotect(pages, codes.bytes, PROT_READ | PROT_EXEC) != 0) {
        munmap(pages, codes.bytes);
        return codes;
    }
    codes.pages = pages;
    for (int p = 0; p < processors; p++) {
        void *entry = (char *)pages + start[p];
        memcpy(&codes.of[p], &entry, sizeof entry);
    }
    return codes;
}

void free_codes(struct codes *codes) {
    if (codes->pages) munmap(codes->pages, codes->bytes);
    memset(codes, 0, sizeof *codes);
}

void run_by_table(const struct issued *issued, char *memory, size_t stride, enum variant variant, uint64_t *read) {
    for (size_t i = 0; i < issued->count; i++) {
        const struct operation *operation = &issued->operations[i];
        _Atomic uint64_t *location = (_Atomic uint64_t *)(memory + operation->address * stride);
        switch (operation->kind) {
        case LOAD: read[issued->place[i]] = atomic_load_explicit(location, memory_order_relaxed); break;
        case STORE: atomic_store_explicit(location, operation->value, memory_order_relaxed); break;
        case SWAP:
            if (variant == SWAP_IN_TWO) {
                read[issued->place[i]] = atomic_load_explicit(location, memory_order_relaxed);
                atomic_store_explicit(location, operation->value, memory_order_relaxed);
            } else {
                read[issued->place[i]] = atomic_exchange(location, operation->value);
            }
            break;
        case MEMBAR: atomic_thread_fence(memory_order_seq_cst); break;
        case STBAR: atomic_thread_fence(memory_order_release); break;
        }
    }
}
