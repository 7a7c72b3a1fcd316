/* What memory held at the beginning, and the text of the log at the end. */
#define _GNU_SOURCE
#include "kept.h"
#include "record.h"

#include <errno.h>
#include <fcntl.h>
#include <stdlib.h>
#include <string.h>
#include <sys/uio.h>
#include <unistd.h>

static void say(const char *what, const char *which) {
    struct iovec parts[] = {{"record: ", 8}, {(void *)what, strlen(what)}, {(void *)which, strlen(which)}, {"\n", 1}};
    if (writev(2, parts, 4) < 0) {}
}

/* ---- first values */

/* A part of memory and what it held at first; of pages of zeros the copy has none. */
struct area {
    uint64_t start, end;
    unsigned char *copy;
};

enum { MOST_AREAS = 1 << 20, MOST_MAPS = 1 << 24 };
static struct area *areas; /* later ones over earlier ones */
static size_t area_count;
static atomic_flag areas_are_used = ATOMIC_FLAG_INIT;

static struct area *add_area(uint64_t start, uint64_t end) {
    if (!areas) areas = pages_of(MOST_AREAS * sizeof *areas);
    unsigned char *copy = areas && area_count < MOST_AREAS ? pages_of(end - start) : NULL;
    if (!copy) {
        spoilt = "memory for first values ran out";
        return NULL;
    }
    areas[area_count] = (struct area){start, end, copy};
    return &areas[area_count++];
}

/* Copies a page, if the system lets it be read and it doesn't hold zeros alone. */
static void copy_page(const struct area *area, uint64_t page, bool is_private) {
    static unsigned char now[PAGE];
    static const unsigned char zeros[PAGE];
    struct iovec to = {now, PAGE}, from = {(void *)page, PAGE};
    if (process_vm_readv(getpid(), &to, 1, &from, 1, 0) != PAGE) {
        /* An emulator may not have that call. */
        if ((errno != ENOSYS && errno != EPERM) || !is_private) return;
        memcpy(now, (const void *)page, PAGE);
    }
    if (memcmp(now, zeros, PAGE) != 0) memcpy(area->copy + (page - area->start), now, PAGE);
}

/* Takes one line of the list of mappings, as `55d0a1a2b000-55d0a1a2c000 rw-p ..`. */
static void take_mapping(char *line) {
    char *rest;
    uint64_t start = strtoull(line, &rest, 16), end = *rest == '-' ? strtoull(rest + 1, &rest, 16) : 0;
    if (end <= start || strncmp(rest, " rw", 3) != 0) return;
    struct area *area = add_area(start, end);
    for (uint64_t page = start; area && page < end; page += PAGE) copy_page(area, page, rest[4] == 'p');
}

/* Copies what can be written of memory, as it is now. */
static void take_first_values(void) {
    char *maps = pages_of(MOST_MAPS), *rest = maps;
    size_t length = 0;
    int file = open("/proc/self/maps", O_RDONLY | O_CLOEXEC);
    for (ssize_t got; maps && file >= 0 && length < MOST_MAPS - 1 && (got = read(file, maps + length, MOST_MAPS - 1 - length)) > 0;)
        length += (size_t)got;
    if (file >= 0) close(file);
    if (!length) spoilt = "/proc/self/maps can't be read";
    for (char *line; length && (line = strsep(&rest, "\n"));) take_mapping(line);
}

static unsigned char first_byte(uint64_t address) {
    static size_t hint;
    if (hint < area_count && address >= areas[hint].start && address < areas[hint].end)
        return areas[hint].copy[address - areas[hint].start];
    for (size_t i = area_count; i-- > 0;)
        if (address >= areas[i].start && address < areas[i].end) return areas[hint = i].copy[address - areas[i].start];
    return 0;
}

static uint64_t first_value(uint64_t address, size_t width) {
    unsigned char bytes[8] = {0};
    uint8_t one;
    uint16_t two;
    uint32_t four;
    uint64_t eight;
    for (size_t i = 0; i < width; i++) bytes[i] = first_byte(address + i);
    switch (width) {
    case 1: return memcpy(&one, bytes, width), one;
    case 2: return memcpy(&two, bytes, width), two;
    case 4: return memcpy(&four, bytes, width), four;
    default: return memcpy(&eight, bytes, width), eight;
    }
}

void record_first(const volatile void *address, size_t width) {
    uint64_t start = (uintptr_t)address;
    while (atomic_flag_test_and_set(&areas_are_used)) {}
    struct area *area = NULL;
    for (size_t i = 0; i < area_count && !area; i++)
        if (start >= areas[i].start && start + width <= areas[i].end) area = &areas[i];
    if (!area) area = add_area(start, start + width);
    if (area) memcpy(area->copy + (start - area->start), (const void *)start, width);
    atomic_flag_clear(&areas_are_used);
}

/* ---- the places that atomic accesses touched */

/* An open table of places, each its address times 16 and its width; 0 in a free slot. */
struct places {
    uint64_t *slots;
    size_t room, count;
};

static uint64_t *place_slot(const struct places *places, uint64_t place) {
    size_t at = (place * UINT64_C(0x9E3779B97F4A7C15) >> 24) & (places->room - 1);
    while (places->slots[at] && places->slots[at] != place) at = (at + 1) & (places->room - 1);
    return &places->slots[at];
}

static bool has_place(const struct places *places, uint64_t address, uint64_t width) {
    return *place_slot(places, address << 4 | width) != 0;
}

static bool grow_places(struct places *places) {
    struct places grown = {.room = places->room ? 2 * places->room : 1024, .count = places->count};
    grown.slots = pages_of(grown.room * sizeof *grown.slots);
    if (!grown.slots) return false;
    for (size_t i = 0; i < places->room; i++)
        if (places->slots[i]) *place_slot(&grown, places->slots[i]) = places->slots[i];
    *places = grown;
    return true;
}

static void add_place(struct places *places, const struct record *record) {
    if (record->kind == BARRIER) return;
    if (2 * places->count >= places->room && !grow_places(places)) {
        spoilt = "memory ran out";
        return;
    }
    uint64_t place = (uint64_t)record->address << 4 | record->width, *slot = place_slot(places, place);
    places->count += !*slot;
    *slot = place;
}

/* Whether accesses of another size touch bytes of the place. */
static bool is_overlapped(const struct places *places, uint64_t address, uint64_t width) {
    for (uint64_t other = 1; other <= 8; other *= 2)
        for (uint64_t at = address - other + 1; at < address + width; at++)
            if ((at != address || other != width) && has_place(places, at, other)) return true;
    return false;
}

/* ---- the text */

static int text_file;
static const char *text_fault;
static bool has_widths;
static char text[1 << 16];
static size_t text_length;

static void write_text(void) {
    for (size_t done = 0; done < text_length && !text_fault;) {
        ssize_t wrote = write(text_file, text + done, text_length - done);
        if (wrote < 0 && errno != EINTR) text_fault = strerror(errno);
        else if (wrote > 0) done += (size_t)wrote;
    }
    text_length = 0;
}

static void put(const char *word) {
    for (; *word; word++) text[text_length++] = *word;
    if (text_length > sizeof text - 256) write_text();
}

static void put_number(const char *before, uint64_t number) {
    char digits[24], *first = &digits[sizeof digits - 1];
    *first = 0;
    do *--first = (char)('0' + number % 10);
    while (number /= 10);
    put(before);
    put(first);
}

static void put_place(const char *before, uint64_t address, uint64_t width) {
    put_number(before, address);
    if (has_widths) put_number("/", width);
}

static void put_record(uint64_t processor, const struct record *record) {
    static const char *const words[] = {[LOAD] = " ld ", [STORE] = " st ", [SWAP] = " sw "};
    put_number("", processor);
    if (record->kind == BARRIER) {
        put(" mb\n");
        return;
    }
    put_place(words[record->kind], record->address, record->width);
    if (record->kind != STORE) put_number(" ", record->read);
    if (record->kind != LOAD) put_number(" ", record->written);
    put("\n");
}

/* The thread that is this processor. */
static const struct thread *thread_of(uint64_t processor) {
    const struct thread *thread = atomic_load(&all_threads);
    while (thread && (!thread->first || thread->processor != processor)) thread = thread->next;
    return thread;
}

/* Does this with each record, processor by processor. */
static void for_each_record(void (*use)(uint64_t processor, const struct record *record, void *with), void *with) {
    for (uint64_t processor = 0; processor < atomic_load(&processors); processor++) {
        const struct thread *thread = thread_of(processor);
        for (struct chunk *chunk = thread ? thread->first : NULL; chunk; chunk = chunk->next)
            for (struct record *record = chunk->records, *end = chunk->end ? chunk->end : thread->free; record < end; record++)
                use(processor, record, with);
    }
}

static void use_for_places(uint64_t processor, const struct record *record, void *places) {
    (void)processor;
    add_place(places, record);
}

static void use_for_text(uint64_t processor, const struct record *record, void *nothing) {
    (void)nothing;
    put_record(processor, record);
}

static void put_first_values(const struct places *places) {
    for (size_t i = 0; i < places->room; i++) {
        uint64_t address = places->slots[i] >> 4, width = places->slots[i] & 15;
        uint64_t value = places->slots[i] ? first_value(address, width) : 0;
        if (!value) continue;
        put_place("init ", address, width);
        put_number(" ", value);
        put("\n");
    }
}

/* Without widths also what accesses of several sizes touch is left out. */
static void put_left_out(const struct places *places) {
    struct marks touched = {0};
    for (struct thread *thread = atomic_load(&all_threads); thread; thread = thread->next) add_marks(&touched, &thread->touched);
    for (size_t i = 0; i < places->room; i++) {
        uint64_t address = places->slots[i] >> 4, width = places->slots[i] & 15;
        if (!places->slots[i] || (!is_marked(&touched, address, width) && (has_widths || !is_overlapped(places, address, width)))) continue;
        put_place("0 un ", address, width);
        put("\n");
    }
}

static void write_log(void) {
    const char *name = getenv("RECORD_LOG") ? getenv("RECORD_LOG") : "record.log";
    struct places places = {0};
    text_file = open(name, O_WRONLY | O_CREAT | O_TRUNC | O_CLOEXEC, 0666);
    if (text_file < 0) text_fault = strerror(errno);
    if (grow_places(&places)) for_each_record(use_for_places, &places);
    else spoilt = "memory ran out";
    if (!text_fault && !spoilt) {
        put_first_values(&places);
        put_left_out(&places);
        for_each_record(use_for_text, NULL);
        if (!cut_off && !spoilt) put("end\n");
        write_text();
    }
    if (text_file >= 0 && close(text_file) != 0) text_fault = strerror(errno);
    if (text_fault) say("the log can't be written: ", text_fault);
    if (spoilt) say("the log says nothing, as ", spoilt);
    else if (cut_off) say("the log is of the first part of the run, and lacks `end`: ", cut_off);
    if (!spoilt && atomic_load(&processors) > 4096) say("more threads than a log may have, ", "4096");
}

/* ---- beginning and end */

static pid_t process;

void record_end(void) {
    static atomic_flag is_written = ATOMIC_FLAG_INIT;
    /* (a child has its parent's records, and writes none) */
    if (process != getpid() || atomic_flag_test_and_set(&is_written)) return;
    stop(NULL);
    write_log();
}

/* The value of a variable of the environment that is one of two words, or the first. */
static bool is_second(const char *name, const char *first, const char *second) {
    const char *word = getenv(name);
    if (!word || strcmp(word, first) == 0) return false;
    if (strcmp(word, second) == 0) return true;
    say("neither of its two words: ", name);
    _exit(2);
}

void record_begin(void) {
    const char *limit = getenv("RECORD_LIMIT");
    char *rest = NULL;
    errno = 0;
    uint64_t most = limit ? strtoull(limit, &rest, 10) : 4000000;
    if (limit && (*limit < '0' || *limit > '9' || *rest || errno || !most)) {
        say("not a number in range: ", "RECORD_LIMIT");
        _exit(2);
    }
    if (process) return;
    has_widths = !is_second("RECORD_PLACES", "bytes", "locations");
    process = getpid();
    take_first_values();
    atexit(record_end);
    begin(most);
}
