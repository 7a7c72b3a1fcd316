/* A small memory model that says for tsobench what its processors did, as an example of how to make one's own do so. Four
   processors with store buffers of four entries, and with caches over a memory, issue operations drawn from a seed. Buffers drain
   now and then: a store asks for its line, the other caches drop theirs, and once all have done so it reaches memory. */
#include <inttypes.h>
#include <stdarg.h>
#include <stdio.h>
#include <stdlib.h>
#include <string.h>

static const char usage[] =
    "usage: simulator SEED [no-forward] [OPTION..]\n"
    "\n"
    "prints a trace of the run that SEED draws, for `tsobench judge`; with no-forward loads miss what waits in their own buffer\n"
    "\n"
    "  --run            prints the run for `tsobench follow`: also when each store reaches memory, and cycles\n"
    "  --operations N   operations of each processor, 1 to 1000000; 20 if not given\n"
    "  --delay N        an invalidation takes up to N cycles, 0 to 1000; 20 with --fault, and else 0, if not given\n"
    "  --fault NAME     a fault at one chance in four:\n"
    "                     fence-leaves-store   a fence completes while a store of its processor waits\n"
    "                     acknowledged-early   a cache acknowledges an invalidation before it applies it\n"
    "                     store-passes         a store passes the head of its buffer\n"
    "                     atomic-reads-early   a swap reads while earlier stores of its processor wait\n"
    "\n"
    "status: 0 it was printed; 2 for other words; 4 it can't be printed\n";

enum { PROCESSORS = 4, ADDRESSES = 3, ENTRIES = 4, OPERATIONS = 20, MOST_OPERATIONS = 1000000, DELAY = 20, MOST_DELAY = 1000 };

enum fault { NO_FAULT, FENCE_LEAVES_STORE, ACKNOWLEDGED_EARLY, STORE_PASSES, ATOMIC_READS_EARLY };
static const char *const faults[] = {"", "fence-leaves-store", "acknowledged-early", "store-passes", "atomic-reads-early"};

/* Of the chances for a fault, one in so many is taken. */
enum { CHANCES = 4 };

enum kind { NOTHING, LOAD, STORE, SWAP, FENCE };

/* A store that waits, or the store of a swap, which is alone in its buffer. */
struct entry {
    int address, is_swap;
    uint64_t value;
};

/* A line of a cache. Where an invalidation is on its way, `dropped_at` is the cycle of its arrival, and else 0. */
struct line {
    int is_valid;
    uint64_t value, dropped_at;
};

struct processor {
    struct line cache[ADDRESSES];
    struct entry buffer[ENTRIES]; /* the oldest entry first */
    int waiting;
    int asking, has_all;          /* the place of the entry that has asked for its line, or -1; whether all acknowledged at once */
    int done;                     /* so many operations */
    enum kind kind;               /* the operation that is to be done now, and whether the fault is at work in it */
    int address, is_wrong;
    uint64_t early;               /* what a swap read too early */
};

static struct processor processors[PROCESSORS];
static uint64_t memory[ADDRESSES];
static int asked[ADDRESSES];   /* how many stores have asked for the line */
static uint64_t cycle, chance; /* `chance` draws delays, and when the fault is at work */
static int left = PROCESSORS;  /* so many processors haven't done all */

static enum fault fault = NO_FAULT;
static int forwards = 1, operations = OPERATIONS, delay = -1;

/* ---- what is added for tsobench: the lines of a run as they come, or a text for each processor; and a counter that makes each
   stored value another one */

enum { LINE = 64 };
static int prints_run;
static char *text[PROCESSORS];
static size_t length[PROCESSORS];
static uint64_t stored;

#define LOG(p, ...) (prints_run ? print_line(p, __VA_ARGS__) : add_line(p, __VA_ARGS__))

/* A line of a run. */
static void print_line(int p, const char *format, ...) {
    va_list values;
    va_start(values, format);
    printf("%d ", p);
    vprintf(format, values);
    printf(" # cycle %" PRIu64 "\n", cycle);
    va_end(values);
}

/* A line of a trace, which says nothing of stores that reach memory. */
static void add_line(int p, const char *format, ...) {
    va_list values;
    va_start(values, format);
    length[p] += (size_t)vsnprintf(text[p] + length[p], LINE - 1, format, values);
    text[p][length[p]++] = '\n';
    va_end(values);
}

static int start_texts(void) {
    for (int p = 0; p < PROCESSORS && !prints_run; p++)
        if (!(text[p] = calloc((size_t)operations, LINE))) return 0;
    return 1;
}

static void end_texts(void) {
    if (!prints_run) puts("tso trace 1");
    for (int p = 0; p < PROCESSORS && !prints_run; p++) printf("proc\n%s", text[p]), free(text[p]);
    puts("end");
}

/* ---- the memory model */

static unsigned draw(uint64_t *random, unsigned below) {
    *random = *random * 6364136223846793005u + 1442695040888963407u;
    return (unsigned)(*random >> 33) % below;
}

/* Whether it is this fault that is looked for, and it is at work now. */
static int strikes(enum fault one) {
    return fault == one && draw(&chance, CHANCES) == 0;
}

/* What processor p reads past its buffer. A line for which a store has asked isn't kept. */
static uint64_t read_line(int p, int a) {
    struct line *line = &processors[p].cache[a];
    if (line->is_valid) return line->value;
    line->is_valid = asked[a] == 0;
    return line->value = memory[a];
}

static uint64_t read_value(int p, int a) {
    const struct processor *it = &processors[p];
    uint64_t value = read_line(p, a);
    for (int i = 0; forwards && i < it->waiting; i++)
        if (it->buffer[i].address == a) value = it->buffer[i].value;
    return value;
}

static void finish(int p) {
    processors[p].kind = NOTHING;
    left -= ++processors[p].done == operations;
}

/* The entry that has asked for its line reaches memory, and the line is kept if no other has asked. */
static void perform(int p) {
    struct processor *it = &processors[p];
    struct entry entry = it->buffer[it->asking];
    struct line *line = &it->cache[entry.address];
    if (entry.is_swap) {
        LOG(p, "sw %d %" PRIu64 " %" PRIu64, entry.address, it->is_wrong ? it->early : memory[entry.address], entry.value);
        finish(p);
    } else if (prints_run) print_line(p, "dr %d %" PRIu64, entry.address, entry.value);
    memory[entry.address] = line->value = entry.value;
    line->is_valid = --asked[entry.address] == 0;
    memmove(&it->buffer[it->asking], &it->buffer[it->asking + 1], (size_t)(--it->waiting - it->asking) * sizeof entry);
    it->asking = -1;
}

/* Whether no other cache has still to drop the line. */
static int is_dropped(int p, int a) {
    for (int q = 0; q < PROCESSORS; q++)
        if (q != p && processors[q].cache[a].dropped_at) return 0;
    return 1;
}

/* Whether an entry of processor p reaches memory, which it does once all other caches have acknowledged. */
static int try_perform(int p) {
    struct processor *it = &processors[p];
    if (it->asking < 0 || !(it->has_all || is_dropped(p, it->buffer[it->asking].address))) return 0;
    perform(p);
    return 1;
}

/* An entry of processor p asks for its line: an invalidation goes to each other cache that has it. */
static void ask(int p, int entry) {
    struct processor *it = &processors[p];
    int a = it->buffer[entry].address;
    it->asking = entry;
    it->has_all = strikes(ACKNOWLEDGED_EARLY);
    asked[a]++;
    for (int q = 0; q < PROCESSORS; q++) {
        struct line *line = &processors[q].cache[a];
        if (q == p || !line->is_valid || line->dropped_at) continue;
        if (delay == 0) line->is_valid = 0;
        else line->dropped_at = cycle + 1 + draw(&chance, (unsigned)delay);
    }
}

/* Whether a store of processor p reaches memory, after the oldest has asked for its line if none had. */
static int drain(int p) {
    struct processor *it = &processors[p];
    if (it->waiting == 0) return 0;
    if (it->asking < 0) ask(p, it->waiting > 1 && it->buffer[0].address != it->buffer[1].address && strikes(STORE_PASSES));
    return try_perform(p);
}

/* Whether at most so many stores of processor p wait, after those that can have reached memory. */
static int has_drained(int p, int most) {
    while (processors[p].waiting > most && drain(p)) {}
    return processors[p].waiting <= most;
}

/* Applies the invalidations that arrive in this cycle; the stores that waited for them reach memory. */
static void deliver(void) {
    for (int p = 0; p < PROCESSORS; p++)
        for (int a = 0; a < ADDRESSES; a++) {
            struct line *line = &processors[p].cache[a];
            if (line->dropped_at == 0 || line->dropped_at > cycle) continue;
            line->is_valid = 0;
            line->dropped_at = 0;
        }
    for (int p = 0; p < PROCESSORS; p++) try_perform(p);
}

/* ---- the operations, of which some are tried again until they can be done */

static void load(int p, int a) {
    LOG(p, "ld %d %" PRIu64, a, read_value(p, a));
    finish(p);
}

static void store(int p, int a) {
    struct processor *it = &processors[p];
    if (!has_drained(p, ENTRIES - 1)) return;
    it->buffer[it->waiting++] = (struct entry){a, 0, ++stored};
    LOG(p, "st %d %" PRIu64, a, stored);
    finish(p);
}

/* Once the buffer is empty, the store of a swap stands there until it reaches memory. */
static void swap(int p, int a) {
    struct processor *it = &processors[p];
    if (it->waiting == 1 && it->buffer[0].is_swap) return;
    if (!has_drained(p, 0)) return;
    it->buffer[it->waiting++] = (struct entry){a, 1, ++stored};
    drain(p);
}

static void fence(int p) {
    if (!has_drained(p, processors[p].is_wrong)) return;
    LOG(p, "mb");
    finish(p);
}

/* Processor p begins the operation that a number below 16 chooses. */
static void begin(int p, int a, unsigned number) {
    struct processor *it = &processors[p];
    it->kind = number < 7 ? LOAD : number < 13 ? STORE : number < 15 ? SWAP : FENCE;
    it->address = a;
    it->is_wrong = it->waiting > 0 && ((it->kind == SWAP && strikes(ATOMIC_READS_EARLY)) ||
                                       (it->kind == FENCE && strikes(FENCE_LEAVES_STORE)));
    if (it->kind == SWAP && it->is_wrong) it->early = read_value(p, a);
}

static void go_on(int p) {
    int a = processors[p].address;
    switch (processors[p].kind) {
    case LOAD: load(p, a); break;
    case STORE: store(p, a); break;
    case SWAP: swap(p, a); break;
    case FENCE: fence(p); break;
    case NOTHING: break;
    }
}

/* In each cycle a buffer may drain, and a processor goes on, unless it has done all. */
static void simulate(uint64_t random) {
    chance = ~random;
    for (int p = 0; p < PROCESSORS; p++) processors[p].asking = -1;
    while (left > 0) {
        cycle++;
        deliver();
        int p = (int)draw(&random, PROCESSORS), a = (int)draw(&random, ADDRESSES);
        unsigned number = draw(&random, 16);
        drain((int)draw(&random, PROCESSORS));
        if (processors[p].done == operations) continue;
        if (processors[p].kind == NOTHING) begin(p, a, number);
        go_on(p);
    }
}

/* ---- its words */

/* The number that a word is, or -1 where it is none from `least` to `most`. */
static int number_of(const char *word, int least, int most) {
    size_t digits = strspn(word, "0123456789");
    if (digits == 0 || digits > 9 || word[digits]) return -1;
    int number = atoi(word);
    return number < least || number > most ? -1 : number;
}

static enum fault fault_of(const char *word) {
    for (int i = 1; i < (int)(sizeof faults / sizeof *faults); i++)
        if (strcmp(word, faults[i]) == 0) return (enum fault)i;
    return NO_FAULT;
}

/* Takes a word, and perhaps the next one: how many it took, or 0 where it is no option. */
static int take(const char *word, const char *next) {
    if (strcmp(word, "no-forward") == 0) return forwards = 0, 1;
    if (strcmp(word, "--run") == 0) return prints_run = 1;
    if (next == NULL) return 0;
    if (strcmp(word, "--operations") == 0) return (operations = number_of(next, 1, MOST_OPERATIONS)) < 0 ? 0 : 2;
    if (strcmp(word, "--delay") == 0) return (delay = number_of(next, 0, MOST_DELAY)) < 0 ? 0 : 2;
    if (strcmp(word, "--fault") == 0) return (fault = fault_of(next)) == NO_FAULT ? 0 : 2;
    return 0;
}

int main(int count, char **words) {
    if (count == 2 && strcmp(words[1], "--help") == 0) return fputs(usage, stdout), 0;
    int taken = count > 1 && words[1][strspn(words[1], "0123456789")] == 0;
    for (int i = 2; i < count && taken; i += taken) taken = take(words[i], words[i + 1]);
    if (!taken) return fputs(usage, stderr), 2;
    if (delay < 0) delay = fault == NO_FAULT ? 0 : DELAY;
    if (!start_texts()) return fputs("simulator: no memory\n", stderr), 4;
    simulate(strtoull(words[1], NULL, 10));
    end_texts();
    return fflush(stdout) || ferror(stdout) ? 4 : 0;
}
