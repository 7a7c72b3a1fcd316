/* Runs programs on the processors of this machine, and prints each distinct outcome as a trace. README.md says how. */
#define _GNU_SOURCE
#include "runs.h"

#include <errno.h>
#include <getopt.h>
#include <inttypes.h>
#include <sched.h>
#include <stdlib.h>
#include <string.h>
#include <unistd.h>

static const char usage[] =
    "usage: capture [OPTIONS] < PROGRAMS > TRACES\n"
    "\n"
    "Reads texts of programs, one after the other, runs each many times with a thread\n"
    "for each processor, and prints each distinct outcome as a trace.\n"
    "\n"
    "  --iterations N    how often each program is run (default 100000)\n"
    "  --layout L        locations apart: line, a cache line each (default); shared,\n"
    "                    eight in a line; page, a page each\n"
    "  --cpus LIST       where the processors run, as 0,2,4-7 (default: all that the\n"
    "                    process may run on)\n"
    "  --oversubscribe   lets processors share a CPU\n"
    "  --jitter T        a processor begins up to T ticks late (default 300)\n"
    "  --seed N          of the lateness (default 1)\n"
    "  --most N          distinct outcomes of a program (default 10000)\n"
    "  --seconds N       stops after so many seconds (default 600)\n"
    "  --counts FILE     writes how often each outcome came\n"
    "  --table           a loop over a table in place of machine code\n"
    "  --variant V       a deviation made on purpose: no-fence, swap-in-two,\n"
    "                    stores-exchanged, loads-exchanged, non-temporal (x86)\n"
    "  --help            this text\n";

struct options {
    struct settings settings;
    uint64_t most, seconds;
    bool oversubscribe;
    const char *counts;
};

static void refuse(const char *why, const char *what) {
    fprintf(stderr, "capture: %s%s%s\n", why, what ? ": " : "", what ? what : "");
    exit(2);
}

static uint64_t number_of(const char *text, uint64_t least, uint64_t most) {
    char *end;
    errno = 0;
    unsigned long long value = strtoull(text, &end, 10);
    if (text[0] < '0' || text[0] > '9' || *end || errno || value < least || value > most) refuse("not a number in range", text);
    return value;
}

/* The number of the name among these, which NULL ends. */
static int place_of(const char *name, const char *const *names, const char *why) {
    for (int i = 0; names[i]; i++)
        if (strcmp(name, names[i]) == 0) return i;
    refuse(why, name);
    return 0;
}

static void set_layout(struct settings *settings, const char *name) {
    static const char *const names[] = {"line", "shared", "page", NULL};
    static const size_t strides[] = {64, 8, 4096};
    settings->stride = strides[place_of(name, names, "not a layout")];
}

static void set_variant(struct settings *settings, const char *name) {
    static const char *const names[] = {"exact", "no-fence", "swap-in-two", "stores-exchanged", "loads-exchanged", "non-temporal", NULL};
    settings->variant = (enum variant)place_of(name, names, "not a variant");
#ifndef __x86_64__
    if (settings->variant == NON_TEMPORAL) refuse("not a variant on this machine", name);
#endif
}

static void add_cpu(struct settings *settings, uint64_t cpu) {
    if (settings->cpu_count == MAX_CPUS) refuse("too many CPUs", NULL);
    settings->cpus[settings->cpu_count++] = (int)cpu;
}

static void set_cpus(struct settings *settings, char *list) {
    settings->cpu_count = 0;
    for (char *part = strtok(list, ","); part; part = strtok(NULL, ",")) {
        char *dash = strchr(part, '-');
        if (dash) *dash = 0;
        uint64_t first = number_of(part, 0, MAX_CPUS - 1), last = dash ? number_of(dash + 1, first, MAX_CPUS - 1) : first;
        for (uint64_t cpu = first; cpu <= last; cpu++) add_cpu(settings, cpu);
    }
    if (settings->cpu_count == 0) refuse("no CPUs", NULL);
}

static void set_all_cpus(struct settings *settings) {
    cpu_set_t set;
    if (sched_getaffinity(0, sizeof set, &set) != 0) refuse("the CPUs of this process can't be looked up", strerror(errno));
    for (int cpu = 0; cpu < MAX_CPUS && cpu < CPU_SETSIZE; cpu++)
        if (CPU_ISSET(cpu, &set)) add_cpu(settings, (uint64_t)cpu);
}

static struct options read_options(int count, char **words) {
    static const struct option names[] = {
        {"iterations", 1, 0, 'i'}, {"layout", 1, 0, 'l'}, {"cpus", 1, 0, 'c'}, {"oversubscribe", 0, 0, 'o'}, {"jitter", 1, 0, 'j'},
        {"seed", 1, 0, 's'}, {"most", 1, 0, 'm'}, {"seconds", 1, 0, 't'}, {"counts", 1, 0, 'f'}, {"table", 0, 0, 'b'},
        {"variant", 1, 0, 'v'}, {"help", 0, 0, 'h'}, {0, 0, 0, 0}};
    struct options options = {
        .settings = {.iterations = 100000, .jitter = 300, .seed = 1, .stride = 64, .variant = EXACT}, .most = 10000, .seconds = 600};
    for (int option; (option = getopt_long(count, words, "", names, NULL)) != -1;) {
        switch (option) {
        case 'i': options.settings.iterations = number_of(optarg, 1, UINT64_C(1000000000000)); break;
        case 'l': set_layout(&options.settings, optarg); break;
        case 'c': set_cpus(&options.settings, optarg); break;
        case 'o': options.oversubscribe = true; break;
        case 'j': options.settings.jitter = number_of(optarg, 0, 1000000000); break;
        case 's': options.settings.seed = number_of(optarg, 0, UINT64_MAX); break;
        case 'm': options.most = number_of(optarg, 1, 10000000); break;
        case 't': options.seconds = number_of(optarg, 1, 1000000); break;
        case 'f': options.counts = optarg; break;
        case 'b': options.settings.by_table = true; break;
        case 'v': set_variant(&options.settings, optarg); break;
        case 'h': fputs(usage, stdout); exit(0);
        default: exit(2); /* getopt_long has said why */
        }
    }
    if (optind < count) refuse("programs come from standard input", words[optind]);
    if (options.settings.by_table && options.settings.variant == NON_TEMPORAL) refuse("--table has no non-temporal stores", NULL);
    if (options.settings.cpu_count == 0) set_all_cpus(&options.settings);
    return options;
}

/* Runs a program and prints its outcomes; false where a fault ends it all. */
static bool capture(const struct program *program, const struct options *options, size_t number, FILE *counts) {
    struct outcomes outcomes;
    const char *why = "memory ran out";
    if (new_outcomes(&outcomes, program->reads, options->most)) why = run_program(program, &options->settings, number, &outcomes);
    if (why) fprintf(stderr, "capture: program %zu: %s\n", number, why);
    for (size_t i = 0; !why && i < outcomes.count; i++) {
        print_trace(stdout, program, outcomes.values + outcomes.reads * i);
        if (counts) fprintf(counts, "program %zu outcome %zu times %" PRIu64 "\n", number, i + 1, outcomes.times[i]);
    }
    if (!why && outcomes.left_out)
        fprintf(stderr, "capture: program %zu: %" PRIu64 " runs had further outcomes than --most lets through\n", number, outcomes.left_out);
    free_outcomes(&outcomes);
    return !why && fflush(stdout) == 0;
}

int main(int count, char **words) {
    struct options options = read_options(count, words);
    FILE *counts = NULL;
    struct program program;
    int found = 0, status = 0;
    if (options.counts && !(counts = fopen(options.counts, "w"))) refuse(options.counts, strerror(errno));
    options.settings.deadline = seconds_now() + (double)options.seconds;
    alarm((unsigned)options.seconds + 30); /* whatever happens, nothing goes on for long after that */
    for (size_t number = 1; status == 0 && (found = read_program(stdin, number, &program)) > 0; number++) {
        if (seconds_now() > options.settings.deadline) {
            fprintf(stderr, "capture: the time is over before program %zu\n", number);
            free_program(&program);
            break;
        }
        if (program.processors > options.settings.cpu_count && !options.oversubscribe) {
            fprintf(stderr, "capture: program %zu: %d processors on %d CPUs; --oversubscribe lets them share\n", number, program.processors, options.settings.cpu_count);
            status = 2;
        } else if (!capture(&program, &options, number, counts)) {
            status = 4;
        }
        free_program(&program);
    }
    if (found < 0) status = 2;
    if (counts && fclose(counts) != 0) status = 4;
    return status;
}
