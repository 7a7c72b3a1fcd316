#include "programs.h"

#include <inttypes.h>
#include <stdlib.h>
#include <string.h>

enum { MAX_LINE = 128 };

struct reader {
    FILE *input;
    size_t number; /* of the text in the input */
    size_t line;   /* of the text, from 1 */
    char text[MAX_LINE];
};

static int fail(const struct reader *reader, const char *why) {
    fprintf(stderr, "capture: program %zu, line %zu: %s\n", reader->number, reader->line, why);
    return -1;
}

/* The next line without its end: 1, 0 at the end of the input, -1 where a line is too long or has no end. */
static int next_line(struct reader *reader) {
    if (!fgets(reader->text, sizeof reader->text, reader->input)) return 0;
    reader->line++;
    size_t length = strlen(reader->text);
    if (length == 0 || reader->text[length - 1] != '\n') return fail(reader, "a line without its end, or too long");
    reader->text[length - 1] = 0;
    return 1;
}

/* A number without leading zeros up to the limit, at the start of a text; what follows it, or NULL where there is none. */
static const char *read_number(const char *text, uint64_t limit, uint64_t *number) {
    uint64_t value = 0;
    const char *at = text;
    for (; *at >= '0' && *at <= '9'; at++) {
        uint64_t digit = (uint64_t)(*at - '0');
        if (value > (UINT64_MAX - digit) / 10) return NULL;
        value = value * 10 + digit;
    }
    if (at == text || (*text == '0' && at - text > 1) || value > limit) return NULL;
    *number = value;
    return at;
}

/* Whether the line is this word and, after single spaces, an address and, if asked for, a value. */
static bool is_line(const char *text, const char *word, unsigned *address, uint64_t *value) {
    size_t length = strlen(word);
    if (strncmp(text, word, length) != 0) return false;
    uint64_t number;
    if (text[length] != ' ' || !(text = read_number(text + length + 1, ADDRESSES - 1, &number))) return false;
    *address = (unsigned)number;
    if (value) return *text == ' ' && (text = read_number(text + 1, UINT64_MAX, value)) && *text == 0;
    return *text == 0;
}

static bool read_operation(const char *text, bool pso, struct operation *operation) {
    operation->value = 0;
    operation->address = 0;
    if (strcmp(text, "mb") == 0) operation->kind = MEMBAR;
    else if (pso && strcmp(text, "stbar") == 0) operation->kind = STBAR;
    else if (is_line(text, "ld", &operation->address, NULL)) operation->kind = LOAD;
    else if (is_line(text, "st", &operation->address, &operation->value)) operation->kind = STORE;
    else if (is_line(text, "sw", &operation->address, &operation->value)) operation->kind = SWAP;
    else return false;
    return true;
}

static void append(struct program *program, struct operation operation) {
    struct processor *processor = &program->processor[program->processors - 1];
    if ((processor->count & (processor->count + 1)) == 0) {
        size_t room = 2 * (processor->count + 1);
        processor->operations = realloc(processor->operations, room * sizeof operation);
        if (!processor->operations) {
            fputs("capture: out of memory\n", stderr);
            exit(4);
        }
    }
    processor->operations[processor->count++] = operation;
    if (operation.kind == LOAD || operation.kind == SWAP) {
        processor->reads++;
        program->reads++;
    }
    if (operation.kind != MEMBAR && operation.kind != STBAR) program->is_used[operation.address] = true;
}

/* The lines before the first `proc`, which is left in the reader. */
static int read_preamble(struct reader *reader, struct program *program) {
    int last = -1;
    if (strcmp(reader->text, "tso program 1") == 0) program->version = 1;
    else if (strcmp(reader->text, "tso program 2") == 0) program->version = 2;
    else return fail(reader, "not the first line of a program");
    int found = next_line(reader);
    if (found > 0 && strcmp(reader->text, "model pso") == 0) {
        program->pso = true;
        found = next_line(reader);
    }
    while (found > 0 && program->version == 2 && strncmp(reader->text, "init ", 5) == 0) {
        unsigned address;
        uint64_t value;
        if (!is_line(reader->text, "init", &address, &value)) return fail(reader, "not an address and a first value");
        if (value == 0) return fail(reader, "a first value 0");
        if ((int)address <= last) return fail(reader, "the addresses of first values don't rise");
        last = (int)address;
        program->has_first[address] = true;
        program->first[address] = value;
        found = next_line(reader);
    }
    return found == 0 ? fail(reader, "no line `end`") : found;
}

static int compare_values(const void *left, const void *right) {
    uint64_t a = *(const uint64_t *)left, b = *(const uint64_t *)right;
    return (a > b) - (a < b);
}

/* Each stored value is at least 1, stored once, and no first value. */
static bool has_own_values(const struct program *program) {
    static uint64_t values[MAX_EVENTS_2 + ADDRESSES];
    size_t count = 0, firsts;
    for (int p = 0; p < program->processors; p++)
        for (size_t i = 0; i < program->processor[p].count; i++) {
            const struct operation *operation = &program->processor[p].operations[i];
            if (operation->kind != STORE && operation->kind != SWAP) continue;
            if (operation->value == 0) return false;
            values[count++] = operation->value;
        }
    qsort(values, count, sizeof *values, compare_values);
    for (size_t i = 1; i < count; i++)
        if (values[i] == values[i - 1]) return false;
    firsts = count;
    for (int a = 0; a < ADDRESSES; a++)
        if (program->has_first[a] && bsearch(&program->first[a], values, firsts, sizeof *values, compare_values)) return false;
    return true;
}

/* The lines from the first `proc` on. */
static int read_processors(struct reader *reader, struct program *program) {
    size_t limit = program->version == 1 ? MAX_EVENTS_1 : MAX_EVENTS_2, events = 0, barriers = 0;
    int found = 1;
    while (found > 0 && strcmp(reader->text, "end") != 0) {
        struct operation operation;
        if (strcmp(reader->text, "proc") == 0) {
            if (program->processors == MAX_PROCESSORS) return fail(reader, "more than 16 processors");
            program->processors++;
        } else if (!read_operation(reader->text, program->pso, &operation)) {
            return fail(reader, "not an operation");
        } else if (program->processors == 0) {
            return fail(reader, "an operation before the first `proc`");
        } else {
            if (operation.kind == MEMBAR || operation.kind == STBAR) barriers++;
            else events += operation.kind == SWAP ? 2 : 1;
            if (events > limit || barriers > limit) return fail(reader, "too many events or barriers");
            append(program, operation);
        }
        found = next_line(reader);
    }
    if (found == 0) return fail(reader, "no line `end`");
    if (found > 0 && !has_own_values(program)) return fail(reader, "a stored value is 0, stored twice, or a first value");
    return found;
}

int read_program(FILE *input, size_t number, struct program *program) {
    struct reader reader = {.input = input, .number = number};
    memset(program, 0, sizeof *program);
    int found = next_line(&reader);
    if (found > 0) found = read_preamble(&reader, program);
    if (found > 0) found = read_processors(&reader, program);
    if (found <= 0) free_program(program);
    return found;
}

void print_trace(FILE *output, const struct program *program, const uint64_t *read) {
    fprintf(output, "tso trace %d\n%s", program->version, program->pso ? "model pso\n" : "");
    for (int a = 0; a < ADDRESSES; a++)
        if (program->has_first[a]) fprintf(output, "init %d %" PRIu64 "\n", a, program->first[a]);
    for (int p = 0; p < program->processors; p++) {
        fputs("proc\n", output);
        for (size_t i = 0; i < program->processor[p].count; i++) {
            const struct operation *operation = &program->processor[p].operations[i];
            switch (operation->kind) {
            case LOAD: fprintf(output, "ld %u %" PRIu64 "\n", operation->address, *read++); break;
            case STORE: fprintf(output, "st %u %" PRIu64 "\n", operation->address, operation->value); break;
            case SWAP:
                fprintf(output, "sw %u %" PRIu64 " %" PRIu64 "\n", operation->address, *read++, operation->value);
                break;
            case MEMBAR: fputs("mb\n", output); break;
            case STBAR: fputs("stbar\n", output); break;
            }
        }
    }
    fputs("end\n", output);
}

void free_program(struct program *program) {
    for (int p = 0; p < MAX_PROCESSORS; p++) free(program->processor[p].operations);
    memset(program, 0, sizeof *program);
}
