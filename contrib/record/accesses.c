/* The functions that objects compiled with -fsanitize=thread call, in place of the sanitizer's: each makes its access and keeps
   what it did. */
#define _GNU_SOURCE
#include "kept.h"

#include <errno.h>
#include <malloc.h>
#include <stdlib.h>
#include <string.h>
#include <unistd.h>

/* ---- atomic accesses */

/* Makes an access with the order that is asked for; the compiler takes one that it doesn't know for the strongest. */
#define BY_ORDER(order, result, access, ...) \
    switch ((order) & 0x7FFF) { \
    case __ATOMIC_RELAXED: result = access(__VA_ARGS__, __ATOMIC_RELAXED); break; \
    case __ATOMIC_CONSUME: \
    case __ATOMIC_ACQUIRE: result = access(__VA_ARGS__, __ATOMIC_ACQUIRE); break; \
    case __ATOMIC_RELEASE: result = access(__VA_ARGS__, __ATOMIC_RELEASE); break; \
    case __ATOMIC_ACQ_REL: result = access(__VA_ARGS__, __ATOMIC_ACQ_REL); break; \
    default: result = access(__VA_ARGS__, __ATOMIC_SEQ_CST); \
    }

/* A compare-and-swap; that it fails says as much as a load of the same order. */
#define COMPARED(place, expected, value, order) \
    __atomic_compare_exchange_n(place, expected, value, false, order, \
        (order) == __ATOMIC_ACQ_REL ? __ATOMIC_ACQUIRE : (order) == __ATOMIC_RELEASE ? __ATOMIC_RELAXED : (order))

#ifdef BROKEN
#include "broken.h"
#endif

static void keep_swap(struct thread *thread, const volatile void *place, size_t width, uint64_t read, uint64_t written) {
    if (!thread) return;
    keep(thread, SWAP, place, width, read, written);
    leave(thread);
}

/* A compare-and-swap that failed is a locked instruction of x86, which stores what it read; elsewhere it is a load. */
static void keep_failed(struct thread *thread, const volatile void *place, size_t width, uint64_t read) {
    if (!thread) return;
#if defined __x86_64__ || defined __i386__
    keep(thread, SWAP, place, width, read, read);
#else
    keep(thread, LOAD, place, width, read, 0);
#endif
    leave(thread);
}

#define LOADS_AND_STORES(bits, type) \
    type __tsan_atomic##bits##_load(const volatile type *place, int order) { \
        struct thread *thread = enter(true); \
        type value; \
        if (order == __ATOMIC_RELAXED) value = __atomic_load_n(place, __ATOMIC_RELAXED); \
        else if (order <= __ATOMIC_ACQUIRE) value = __atomic_load_n(place, __ATOMIC_ACQUIRE); \
        else value = __atomic_load_n(place, __ATOMIC_SEQ_CST); \
        if (thread) keep(thread, LOAD, place, sizeof value, value, 0), leave(thread); \
        return value; \
    } \
    type __tsan_atomic##bits##_exchange(volatile type *place, type value, int order) { \
        struct thread *thread = enter(true); \
        type read; \
        BY_ORDER(order, read, __atomic_exchange_n, place, value) \
        keep_swap(thread, place, sizeof value, read, value); \
        return read; \
    } \
    /* A store of order seq_cst is made by an exchange, as compilers do it on x86, and is a swap in the log. */ \
    void __tsan_atomic##bits##_store(volatile type *place, type value, int order) { \
        if (order == __ATOMIC_SEQ_CST) { \
            __tsan_atomic##bits##_exchange(place, value, order); \
            return; \
        } \
        struct thread *thread = enter(true); \
        if (order == __ATOMIC_RELAXED) __atomic_store_n(place, value, __ATOMIC_RELAXED); \
        else __atomic_store_n(place, value, __ATOMIC_RELEASE); \
        if (thread) keep(thread, STORE, place, sizeof value, 0, value), leave(thread); \
    }

#define FETCH(bits, type, name, stored) \
    type __tsan_atomic##bits##_fetch_##name(volatile type *place, type value, int order) { \
        struct thread *thread = enter(true); \
        type read; \
        BY_ORDER(order, read, __atomic_fetch_##name, place, value) \
        keep_swap(thread, place, sizeof value, read, (type)(stored)); \
        return read; \
    }

#define COMPARE(bits, type) \
    type __tsan_atomic##bits##_compare_exchange_val(volatile type *place, type expected, type value, int order, int order_of_failure) { \
        struct thread *thread = enter(true); \
        type read = expected; \
        bool is_done; \
        (void)order_of_failure; \
        BY_ORDER(order, is_done, COMPARED, place, &read, value) \
        if (is_done) keep_swap(thread, place, sizeof value, expected, value); \
        else keep_failed(thread, place, sizeof value, read); \
        return read; \
    } \
    int __tsan_atomic##bits##_compare_exchange_strong(volatile type *place, type *expected, type value, int order, int order_of_failure) { \
        type read = __tsan_atomic##bits##_compare_exchange_val(place, *expected, value, order, order_of_failure); \
        if (read == *expected) return 1; \
        touch(expected, sizeof *expected); \
        *expected = read; \
        return 0; \
    } \
    int __tsan_atomic##bits##_compare_exchange_weak(volatile type *place, type *expected, type value, int order, int order_of_failure) { \
        return __tsan_atomic##bits##_compare_exchange_strong(place, expected, value, order, order_of_failure); \
    }

#define ALL_ACCESSES(bits, type) \
    LOADS_AND_STORES(bits, type) \
    FETCH(bits, type, add, read + value) \
    FETCH(bits, type, sub, read - value) \
    FETCH(bits, type, and, read & value) \
    FETCH(bits, type, or, read | value) \
    FETCH(bits, type, xor, read ^ value) \
    FETCH(bits, type, nand, ~(read & value)) \
    COMPARE(bits, type)

ALL_ACCESSES(8, uint8_t)
ALL_ACCESSES(16, uint16_t)
ALL_ACCESSES(32, uint32_t)
ALL_ACCESSES(64, uint64_t)

/* Under TSO only a fence of order seq_cst is a barrier. */
void __tsan_atomic_thread_fence(int order) {
    if (order != __ATOMIC_SEQ_CST) {
        __atomic_thread_fence(__ATOMIC_ACQ_REL);
        return;
    }
    struct thread *thread = enter(true);
    __atomic_thread_fence(__ATOMIC_SEQ_CST);
    if (thread) keep(thread, BARRIER, NULL, 0, 0, 0), leave(thread);
}

void __tsan_atomic_signal_fence(int order) {
    (void)order;
    __atomic_signal_fence(__ATOMIC_SEQ_CST);
}

/* ---- atomic accesses of 16 bytes */

static void refuse_16_bytes(void) {
    static const char why[] = "record: an atomic access of 16 bytes can't be recorded\n";
    if (write(2, why, sizeof why - 1) < 0) {}
    abort();
}

#define REFUSED(name) \
    void __tsan_atomic128_##name(void) { refuse_16_bytes(); }

REFUSED(load)
REFUSED(store)
REFUSED(exchange)
REFUSED(fetch_add)
REFUSED(fetch_sub)
REFUSED(fetch_and)
REFUSED(fetch_or)
REFUSED(fetch_xor)
REFUSED(fetch_nand)
REFUSED(compare_exchange_strong)
REFUSED(compare_exchange_weak)
REFUSED(compare_exchange_val)

/* ---- plain accesses: loads may be left out of a log, and what is written so is left out of it as a whole */

#define PLAIN(size) \
    void __tsan_read##size(void *address) { (void)address; } \
    void __tsan_write##size(void *address) { touch(address, size); } \
    void __tsan_read##size##_pc(void *address, void *caller) { (void)address, (void)caller; } \
    void __tsan_write##size##_pc(void *address, void *caller) { (void)caller, touch(address, size); } \
    void __tsan_read_write##size(void *address) { touch(address, size); } \
    void __tsan_volatile_read##size(void *address) { (void)address; } \
    void __tsan_volatile_write##size(void *address) { touch(address, size); }

#define UNALIGNED(size) \
    void __tsan_unaligned_read##size(void *address) { (void)address; } \
    void __tsan_unaligned_write##size(void *address) { touch(address, size); } \
    void __tsan_unaligned_read_write##size(void *address) { touch(address, size); } \
    void __tsan_unaligned_volatile_read##size(void *address) { (void)address; } \
    void __tsan_unaligned_volatile_write##size(void *address) { touch(address, size); }

PLAIN(1)
PLAIN(2)
PLAIN(4)
PLAIN(8)
PLAIN(16)
UNALIGNED(2)
UNALIGNED(4)
UNALIGNED(8)
UNALIGNED(16)

void __tsan_read_range(void *address, size_t size) { (void)address, (void)size; }
void __tsan_write_range(void *address, size_t size) { touch(address, size); }
void __tsan_read_range_pc(void *address, size_t size, void *caller) { (void)address, (void)size, (void)caller; }
void __tsan_write_range_pc(void *address, size_t size, void *caller) { (void)caller, touch(address, size); }
void __tsan_vptr_read(void **address) { (void)address; }
void __tsan_vptr_update(void **address, void *value) { (void)value, touch(address, sizeof *address); }
void __tsan_func_entry(void *caller) { (void)caller; }
void __tsan_func_exit(void) {}
void __tsan_init(void) {}

/* ---- what libraries write, whose own accesses aren't instrumented */

/* The linker turns a program's calls into these, by `link.options`, and later compilers call those below. A busy thread calls
   from this library, where the compiler copies a structure. */
void *__real_memcpy(void *to, const void *from, size_t size) __attribute__((weak));
void *__real_memmove(void *to, const void *from, size_t size) __attribute__((weak));
void *__real_memset(void *to, int byte, size_t size) __attribute__((weak));
int __real___cxa_guard_acquire(void *guard) __attribute__((weak));

static void touch_if_idle(const volatile void *address, size_t size) {
    if (!own_thread || !atomic_load_explicit(&own_thread->is_busy, memory_order_relaxed)) touch(address, size);
}

void *__wrap_memcpy(void *to, const void *from, size_t size) { return touch_if_idle(to, size), __real_memcpy(to, from, size); }
void *__wrap_memmove(void *to, const void *from, size_t size) { return touch_if_idle(to, size), __real_memmove(to, from, size); }
void *__wrap_memset(void *to, int byte, size_t size) { return touch_if_idle(to, size), __real_memset(to, byte, size); }
/* The guard of a static variable of C++: programs load it, and the library stores to it. */
int __wrap___cxa_guard_acquire(void *guard) { return touch(guard, 8), __real___cxa_guard_acquire(guard); }

void *__tsan_memcpy(void *to, const void *from, size_t size) { return touch(to, size), memcpy(to, from, size); }
void *__tsan_memmove(void *to, const void *from, size_t size) { return touch(to, size), memmove(to, from, size); }
void *__tsan_memset(void *to, int byte, size_t size) { return touch(to, size), memset(to, byte, size); }

/* What malloc hands out or takes back has parts that it wrote. These take the place of the C library's, and call them. */
void *__libc_malloc(size_t size);
void *__libc_calloc(size_t count, size_t size);
void *__libc_realloc(void *memory, size_t size);
void *__libc_memalign(size_t alignment, size_t size);
void __libc_free(void *memory);

static void *touched(void *memory) {
    if (memory) touch(memory, malloc_usable_size(memory));
    return memory;
}

void *malloc(size_t size) { return touched(__libc_malloc(size)); }
void *calloc(size_t count, size_t size) { return touched(__libc_calloc(count, size)); }
void *realloc(void *memory, size_t size) { return touched(__libc_realloc(touched(memory), size)); }
void *memalign(size_t alignment, size_t size) { return touched(__libc_memalign(alignment, size)); }
void *aligned_alloc(size_t alignment, size_t size) { return touched(__libc_memalign(alignment, size)); }
void free(void *memory) { __libc_free(touched(memory)); }

int posix_memalign(void **to, size_t alignment, size_t size) {
    if (alignment < sizeof(void *) || (alignment & (alignment - 1))) return EINVAL;
    void *memory = touched(__libc_memalign(alignment, size));
    if (!memory) return ENOMEM;
    *to = memory;
    return 0;
}
