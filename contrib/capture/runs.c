#define _GNU_SOURCE
#include "runs.h"

#include <pthread.h>
#include <sched.h>
#include <stdatomic.h>
#include <stdlib.h>
#include <string.h>
#include <sys/mman.h>
#include <time.h>

enum { LINE = 128, SPINS = 2000 };

/* What one thread has for itself, in lines of its own. */
struct lane {
    struct run *run;
    int processor;
    uint64_t random;
    uint64_t *read;
    pthread_t thread;
    char apart[2 * LINE];
};

struct run {
    const struct program *program;
    const struct settings *settings;
    struct outcomes *outcomes;
    struct issued issued[MAX_PROCESSORS];
    struct codes codes;
    char *memory;
    uint64_t *gathered;
    struct lane lanes[MAX_PROCESSORS];
    _Alignas(LINE) _Atomic uint64_t arrived; /* at the meetings so far */
    _Alignas(LINE) _Atomic uint64_t start;   /* the time stamp at which the next iteration begins */
    atomic_bool is_over;
    atomic_bool has_failed; /* memory ran out, or a thread could not be pinned */
};

double seconds_now(void) {
    struct timespec now;
    clock_gettime(CLOCK_MONOTONIC, &now);
    return (double)now.tv_sec + (double)now.tv_nsec * 1e-9;
}

#if defined __x86_64__
static uint64_t time_stamp(void) { return __builtin_ia32_rdtsc(); }
static uint64_t ticks_to_meet(void) { return 1500; }
static void relax(void) { __builtin_ia32_pause(); }
#elif defined __aarch64__
static uint64_t time_stamp(void) {
    uint64_t now;
    __asm__ volatile("isb\n\tmrs %0, cntvct_el0" : "=r"(now)::"memory");
    return now;
}
static uint64_t ticks_to_meet(void) {
    uint64_t ticks_of_a_second;
    __asm__("mrs %0, cntfrq_el0" : "=r"(ticks_of_a_second));
    return ticks_of_a_second / 2000000 + 1;
}
static void relax(void) { __asm__ volatile("yield"); }
#else
static uint64_t time_stamp(void) { return (uint64_t)(seconds_now() * 1e9); }
static uint64_t ticks_to_meet(void) { return 500; }
static void relax(void) {}
#endif

/* Waits for all threads of the run; `meetings` counts those of this thread. */
static void meet(struct run *run, uint64_t *meetings) {
    uint64_t all = ++*meetings * (uint64_t)run->program->processors;
    atomic_fetch_add(&run->arrived, 1);
    for (unsigned spins = 0; atomic_load(&run->arrived) < all; spins++) {
        relax();
        if (spins >= SPINS) sched_yield();
    }
}

static uint64_t draw(uint64_t *random) {
    *random ^= *random << 13;
    *random ^= *random >> 7;
    *random ^= *random << 17;
    return *random;
}

static void reset_memory(struct run *run) {
    for (int a = 0; a < ADDRESSES; a++)
        if (run->program->is_used[a])
            atomic_store_explicit((_Atomic uint64_t *)(run->memory + (size_t)a * run->settings->stride), run->program->first[a], memory_order_relaxed);
}

static void gather(struct run *run) {
    uint64_t *to = run->gathered;
    for (int p = 0; p < run->program->processors; p++) {
        size_t reads = run->program->processor[p].reads;
        memcpy(to, run->lanes[p].read, reads * sizeof *to);
        to += reads;
    }
    if (!add_outcome(run->outcomes, run->gathered)) {
        atomic_store(&run->has_failed, true);
        atomic_store(&run->is_over, true);
    }
}

/* One iteration of a thread, between two meetings. */
static void run_once(struct run *run, struct lane *lane) {
    uint64_t late = run->settings->jitter ? draw(&lane->random) % (run->settings->jitter + 1) : 0;
    uint64_t start = atomic_load(&run->start) + late;
    code own = run->codes.of[lane->processor];
    while (time_stamp() < start) {
    }
    if (own) own(run->memory, lane->read);
    else run_by_table(&run->issued[lane->processor], run->memory, run->settings->stride, run->settings->variant, lane->read);
}

static bool pin(struct run *run, int processor) {
    cpu_set_t set;
    CPU_ZERO(&set);
    CPU_SET(run->settings->cpus[processor % run->settings->cpu_count], &set);
    return pthread_setaffinity_np(pthread_self(), sizeof set, &set) == 0;
}

/* A thread of the run. In each iteration another one sets memory and time before it, and takes in what was read after it. */
static void *run_thread(void *own) {
    struct lane *lane = own;
    struct run *run = lane->run;
    uint64_t meetings = 0, processors = (uint64_t)run->program->processors;
    if (!pin(run, lane->processor)) {
        atomic_store(&run->has_failed, true);
        atomic_store(&run->is_over, true);
    }
    meet(run, &meetings);
    for (uint64_t i = 0; i < run->settings->iterations; i++) {
        bool leads = i % processors == (uint64_t)lane->processor;
        if (leads) {
            if (seconds_now() > run->settings->deadline) atomic_store(&run->is_over, true);
            reset_memory(run);
            atomic_store(&run->start, time_stamp() + ticks_to_meet());
        }
        meet(run, &meetings);
        if (atomic_load(&run->is_over)) break;
        run_once(run, lane);
        meet(run, &meetings);
        /* The next iteration's first meeting waits for this. */
        if (leads) gather(run);
    }
    return NULL;
}

/* Starts a thread for each processor. Where the system refuses one, those that wait for it are let go. */
static const char *run_threads(struct run *run) {
    const char *why = NULL;
    int started = 0;
    for (; started < run->program->processors && !why; started++)
        if (pthread_create(&run->lanes[started].thread, NULL, run_thread, &run->lanes[started]) != 0) why = "the system refused a thread";
    if (why) {
        started--;
        atomic_store(&run->is_over, true);
        atomic_fetch_add(&run->arrived, UINT64_C(1) << 32);
    }
    for (int p = 0; p < started; p++) pthread_join(run->lanes[p].thread, NULL);
    if (!why && atomic_load(&run->has_failed)) why = "memory ran out, or a thread could not be bound to its CPU";
    return why;
}

static bool make_lanes(struct run *run, uint64_t number) {
    for (int p = 0; p < run->program->processors; p++) {
        struct lane *lane = &run->lanes[p];
        size_t bytes = (run->program->processor[p].reads * sizeof *lane->read + LINE) / LINE * LINE;
        lane->run = run;
        lane->processor = p;
        lane->random = (run->settings->seed + number * MAX_PROCESSORS + (uint64_t)p) * 0x9E3779B97F4A7C15u | 1;
        lane->read = aligned_alloc(LINE, bytes);
        if (!lane->read) return false;
        memset(lane->read, 0, bytes);
    }
    run->gathered = calloc(run->program->reads + 1, sizeof *run->gathered);
    return run->gathered != NULL;
}

const char *run_program(const struct program *program, const struct settings *settings, uint64_t number, struct outcomes *outcomes) {
    size_t bytes = ADDRESSES * settings->stride + LINE;
    struct run *run = aligned_alloc(LINE, (sizeof *run + LINE - 1) / LINE * LINE);
    const char *why = "memory ran out";
    if (!run) return why;
    memset(run, 0, sizeof *run);
    run->program = program;
    run->settings = settings;
    run->outcomes = outcomes;
    run->memory = mmap(NULL, bytes, PROT_READ | PROT_WRITE, MAP_PRIVATE | MAP_ANONYMOUS, -1, 0);
    for (int p = 0; p < program->processors; p++) run->issued[p] = issue(&program->processor[p], settings->variant);
    if (run->memory != MAP_FAILED && make_lanes(run, number)) {
        if (!settings->by_table) run->codes = make_codes(run->issued, program->processors, settings->stride, settings->variant);
        why = program->processors ? run_threads(run) : NULL;
        if (!why && program->processors == 0 && !add_outcome(outcomes, run->gathered)) why = "memory ran out";
    }
    free_codes(&run->codes);
    for (int p = 0; p < MAX_PROCESSORS; p++) {
        free_issued(&run->issued[p]);
        free(run->lanes[p].read);
    }
    free(run->gathered);
    if (run->memory != MAP_FAILED) munmap(run->memory, bytes);
    free(run);
    return why;
}
