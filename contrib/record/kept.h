/* What is kept while a program runs: each thread's accesses, and the bytes that anything else than an atomic access wrote. */
#ifndef RECORD_KEPT_H
#define RECORD_KEPT_H

#include <stdatomic.h>
#include <stdbool.h>
#include <stddef.h>
#include <stdint.h>

/* What the files share has names in the object that no program has. */
#define stage recorder_stage
#define own_thread recorder_own_thread
#define all_threads recorder_all_threads
#define processors recorder_processors
#define enter_slowly recorder_enter_slowly
#define mark recorder_mark
#define is_marked recorder_is_marked
#define add_marks recorder_add_marks
#define touch recorder_touch
#define begin recorder_begin
#define stop recorder_stop
#define cut_off recorder_cut_off
#define spoilt recorder_spoilt
#define pages_of recorder_pages_of

enum kind { LOAD, STORE, SWAP, BARRIER };

struct record {
    uint64_t address : 57, kind : 3, width : 4;
    uint64_t read, written;
};

struct chunk {
    struct chunk *next;
    struct record *end; /* behind the last record, once the chunk is full */
    struct record records[];
};

enum { PAGE = 4096, PAGE_WORDS = PAGE / 64 };

/* One bit for each byte of a page. */
struct page_marks {
    uint64_t page; /* 1 more than its number, or 0 in a free slot */
    uint64_t words[PAGE_WORDS];
};

/* A set of bytes: an open table of pages. */
struct marks {
    struct page_marks *slots;
    size_t room, count; /* room is 0 or a power of two */
};

/* A thread of the program. It is never freed, as its accesses are written at the end. */
struct thread {
    struct thread *next;
    atomic_bool is_busy; /* in an access, between `enter` and `leave` */
    uint64_t processor;
    struct chunk *first, *last;   /* NULL before the first access */
    struct record *free, *end;    /* the room that is left in the last chunk */
    uint64_t count;               /* the records for which room was made */
    struct marks touched;         /* what it wrote in another way than by atomic accesses */
};

/* Nothing is kept before RECORDING and after ENDED. While it is ENDING, accesses that began before are finished and others wait, so
   that no access that is kept can have read what one that isn't kept wrote. */
enum stage { BEFORE, RECORDING, ENDING, ENDED };
extern _Atomic enum stage stage;
extern __thread struct thread *own_thread;
extern struct thread *_Atomic all_threads;
extern _Atomic uint64_t processors;

struct thread *enter_slowly(bool is_logged);

/* Begins an access, which gets a record if it is logged: the thread whose it is, or NULL where nothing is kept. */
static inline struct thread *enter(bool is_logged) {
    if (atomic_load_explicit(&stage, memory_order_relaxed) == BEFORE) return NULL;
    struct thread *thread = own_thread;
    if (!thread || atomic_load_explicit(&thread->is_busy, memory_order_relaxed) || (is_logged && thread->free == thread->end))
        return enter_slowly(is_logged);
    atomic_store_explicit(&thread->is_busy, true, memory_order_relaxed);
    atomic_signal_fence(memory_order_seq_cst); /* `stop` makes it a fence of this processor, when it needs one */
    if (atomic_load_explicit(&stage, memory_order_relaxed) == RECORDING) return thread;
    atomic_store_explicit(&thread->is_busy, false, memory_order_relaxed);
    return enter_slowly(is_logged);
}

static inline void leave(struct thread *thread) {
    atomic_store_explicit(&thread->is_busy, false, memory_order_release);
}

/* Keeps what an access did. */
static inline void keep(struct thread *thread, enum kind kind, const volatile void *address, size_t width, uint64_t read, uint64_t written) {
    *thread->free++ = (struct record){.address = (uintptr_t)address, .kind = kind, .width = width, .read = read, .written = written};
}

/* Adds bytes to a set. */
void mark(struct marks *marks, uint64_t address, uint64_t size);
bool is_marked(const struct marks *marks, uint64_t address, uint64_t size);
void add_marks(struct marks *marks, const struct marks *added);

/* Says that something else than an atomic access writes these bytes. */
void touch(const volatile void *address, size_t size);

void begin(uint64_t limit);
/* Stops keeping, once all accesses that began are kept; with a reason where it is before the end of the program. */
void stop(const char *why);
/* Why the log is only of the run's first part, and why it is no log at all, or NULL. */
extern const char *cut_off, *spoilt;

/* Zeroed memory that nothing else uses, or NULL. */
void *pages_of(size_t bytes);

#endif
