#define _GNU_SOURCE
#include "kept.h"
#include "record.h"

#include <link.h>
#include <linux/membarrier.h>
#include <sched.h>
#include <sys/mman.h>
#include <sys/syscall.h>
#include <unistd.h>

enum { CHUNK_RECORDS = 43690 }; /* 1 MiB */

_Atomic enum stage stage;
__thread struct thread *own_thread;
struct thread *_Atomic all_threads;
_Atomic uint64_t processors;
const char *cut_off, *spoilt;
static uint64_t most_records;
static bool has_barriers; /* of other threads, by the system */

void *pages_of(size_t bytes) {
    void *pages = mmap(NULL, bytes, PROT_READ | PROT_WRITE, MAP_PRIVATE | MAP_ANONYMOUS | MAP_NORESERVE, -1, 0);
    return pages == MAP_FAILED ? NULL : pages;
}

/* ---- sets of bytes */

/* The slot of a page, or the free one where it belongs. */
static struct page_marks *slot_of(const struct marks *marks, uint64_t page) {
    size_t at = (page * UINT64_C(0x9E3779B97F4A7C15) >> 20) & (marks->room - 1);
    while (marks->slots[at].page && marks->slots[at].page != page) at = (at + 1) & (marks->room - 1);
    return &marks->slots[at];
}

static bool grow(struct marks *marks) {
    struct marks grown = {.room = marks->room ? 2 * marks->room : 64, .count = marks->count};
    grown.slots = pages_of(grown.room * sizeof *grown.slots);
    if (!grown.slots) return false;
    for (size_t i = 0; i < marks->room; i++)
        if (marks->slots[i].page) *slot_of(&grown, marks->slots[i].page) = marks->slots[i];
    if (marks->room) munmap(marks->slots, marks->room * sizeof *marks->slots);
    *marks = grown;
    return true;
}

/* The marks of a page, which are made where there are none; NULL where memory ran out. */
static struct page_marks *page_of(struct marks *marks, uint64_t page) {
    if (2 * marks->count >= marks->room && !grow(marks)) {
        spoilt = "memory ran out";
        return NULL;
    }
    struct page_marks *slot = slot_of(marks, page);
    if (!slot->page) {
        slot->page = page;
        marks->count++;
    }
    return slot;
}

/* The bits of the first `size` bytes from `address` on that lie in its 64 bytes. */
static uint64_t bits_of(uint64_t address, uint64_t size) {
    uint64_t first = address % 64, bits = size < 64 ? (UINT64_C(1) << size) - 1 : ~UINT64_C(0);
    return bits << first;
}

void mark(struct marks *marks, uint64_t address, uint64_t size) {
    for (uint64_t end = address + size; address < end; address += 64 - address % 64) {
        struct page_marks *slot = page_of(marks, address / PAGE + 1);
        if (!slot) return;
        slot->words[address % PAGE / 64] |= bits_of(address, end - address);
    }
}

bool is_marked(const struct marks *marks, uint64_t address, uint64_t size) {
    for (uint64_t end = address + size; marks->room && address < end; address += 64 - address % 64)
        if (slot_of(marks, address / PAGE + 1)->words[address % PAGE / 64] & bits_of(address, end - address)) return true;
    return false;
}

void add_marks(struct marks *marks, const struct marks *added) {
    for (size_t i = 0; i < added->room; i++) {
        struct page_marks *slot = added->slots[i].page ? page_of(marks, added->slots[i].page) : NULL;
        for (size_t word = 0; slot && word < PAGE_WORDS; word++) slot->words[word] |= added->slots[i].words[word];
    }
}

void touch(const volatile void *address, size_t size) {
    struct thread *thread = enter(false);
    if (!thread) return;
    mark(&thread->touched, (uintptr_t)address, size);
    leave(thread);
}

/* ---- threads */

/* What the C library wrote when it made this thread's own variables. */
static int touch_variables(struct dl_phdr_info *module, size_t size, void *thread) {
    if (size < offsetof(struct dl_phdr_info, dlpi_tls_data) + sizeof module->dlpi_tls_data || !module->dlpi_tls_data) return 0;
    for (size_t i = 0; i < module->dlpi_phnum; i++)
        if (module->dlpi_phdr[i].p_type == PT_TLS)
            mark(&((struct thread *)thread)->touched, (uintptr_t)module->dlpi_tls_data, module->dlpi_phdr[i].p_memsz);
    return 0;
}

static struct thread *new_thread(void) {
    struct thread *thread = pages_of(sizeof *thread);
    if (!thread) return NULL;
    if (atomic_load(&stage) != BEFORE) dl_iterate_phdr(touch_variables, thread);
    thread->next = atomic_load(&all_threads);
    while (!atomic_compare_exchange_weak(&all_threads, &thread->next, thread)) {}
    return own_thread = thread;
}

/* Makes room for a record, in a new chunk; else says why not. */
static const char *add_chunk(struct thread *thread) {
    uint64_t left = most_records - thread->count, room = left < CHUNK_RECORDS ? left : CHUNK_RECORDS;
    if (!room) return "a thread reached the limit of operations (RECORD_LIMIT)";
    struct chunk *chunk = pages_of(sizeof *chunk + room * sizeof *chunk->records);
    if (!chunk) return "memory ran out";
    if (thread->last) {
        thread->last->end = thread->free;
        thread->last->next = chunk;
    } else {
        thread->first = chunk;
        thread->processor = atomic_fetch_add(&processors, 1);
    }
    thread->last = chunk;
    thread->count += room;
    thread->free = chunk->records;
    thread->end = chunk->records + room;
    return NULL;
}

/* The same as `enter`, where there is something to do first. */
struct thread *enter_slowly(bool is_logged) {
    if (atomic_load(&stage) == ENDED) return NULL;
    struct thread *thread = own_thread ? own_thread : new_thread();
    if (!thread) {
        stop("memory ran out");
        return NULL;
    }
    if (atomic_load_explicit(&thread->is_busy, memory_order_relaxed)) {
        spoilt = "a signal handler made an access within another one";
        return NULL;
    }
    for (;;) {
        const char *why = is_logged && thread->free == thread->end ? add_chunk(thread) : NULL;
        if (why) {
            stop(why);
            record_end(); /* (a program that waits for ever has a log too) */
        }
        atomic_store_explicit(&thread->is_busy, true, memory_order_relaxed);
        atomic_signal_fence(memory_order_seq_cst);
        enum stage now = atomic_load(&stage);
        if (now == RECORDING) return thread;
        leave(thread);
        if (now == ENDED) return NULL;
        sched_yield();
    }
}

/* ---- beginning and end */

void begin(uint64_t limit) {
    most_records = limit;
    has_barriers = syscall(SYS_membarrier, MEMBARRIER_CMD_REGISTER_PRIVATE_EXPEDITED, 0, 0) == 0;
    if (!new_thread()) cut_off = "memory ran out";
    atomic_store(&stage, cut_off ? ENDED : RECORDING);
}

void stop(const char *why) {
    enum stage recording = RECORDING;
    if (atomic_compare_exchange_strong(&stage, &recording, ENDING)) {
        cut_off = why;
        /* From here on each thread has told that it is busy, or sees that it is ENDING. */
        if (!has_barriers || syscall(SYS_membarrier, MEMBARRIER_CMD_PRIVATE_EXPEDITED, 0, 0) != 0) usleep(20000);
        for (struct thread *thread = atomic_load(&all_threads); thread; thread = thread->next)
            while (atomic_load(&thread->is_busy)) sched_yield();
        atomic_store(&stage, ENDED);
    }
    while (atomic_load(&stage) == ENDING) sched_yield();
}
