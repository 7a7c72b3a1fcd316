/* Deviations made on purpose, as negative controls: of the four each is a wrong machine, as the log says what a right one would
   have done. `build` takes one of them by CFLAGS, as `-DBROKEN -DBROKEN_SWAPS`. */
#ifndef RECORD_BROKEN_H
#define RECORD_BROKEN_H

#if defined BROKEN_SWAPS

/* Read-modify-writes are made as a load and a store, which is left out where it changes nothing: a thread that waits for a lock
   would else take it for nobody. */
#define IN_TWO(place, new_value) \
    ({ \
        __typeof__(*(place)) kept = *(place), changed = (__typeof__(kept))(new_value); \
        if (kept != changed) *(place) = changed; \
        kept; \
    })
#define __atomic_exchange_n(place, value, order) IN_TWO(place, value)
#define __atomic_fetch_add(place, value, order) IN_TWO(place, kept + (value))
#define __atomic_fetch_sub(place, value, order) IN_TWO(place, kept - (value))
#undef COMPARED
#define COMPARED(place, expected, value, order) \
    ({ \
        __typeof__(*(place)) found = *(place); \
        bool is_same = found == *(expected); \
        if (is_same) *(place) = (value); \
        else *(expected) = found; \
        is_same; \
    })

#elif defined BROKEN_FENCES

/* Barriers are left out. */
#define __atomic_thread_fence(order) __atomic_signal_fence(__ATOMIC_SEQ_CST)

#elif defined BROKEN_STORES && defined __x86_64__

/* Stores of 4 and 8 bytes are non-temporal, and pass earlier ones. */
static inline void store_non_temporal(volatile void *place, uint64_t value, size_t width) {
    if (width == 8) __asm__ volatile("movnti %1, %0" : "=m"(*(volatile uint64_t *)place) : "r"(value));
    else if (width == 4) __asm__ volatile("movnti %1, %0" : "=m"(*(volatile uint32_t *)place) : "r"((uint32_t)value));
    else if (width == 2) *(volatile uint16_t *)place = (uint16_t)value;
    else *(volatile uint8_t *)place = (uint8_t)value;
}
#define __atomic_store_n(place, value, order) store_non_temporal(place, value, sizeof(value))

#elif defined BROKEN_LOADS

/* One load in 64 answers what the thread's last load of a place of the same slot read there, if it was of that place. */
struct loaded {
    const volatile void *place;
    uint64_t value;
};
static __thread struct loaded loaded[256];
static __thread unsigned loads;

static inline uint64_t stale_or(const volatile void *place, uint64_t value) {
    struct loaded *slot = &loaded[(uintptr_t)place / 4 % 256];
    if (slot->place == place && ++loads % 64 == 0) return slot->value;
    *slot = (struct loaded){place, value};
    return value;
}
#define __atomic_load_n(place, order) (__typeof__(*(place)))stale_or(place, *(place))

#else
#error "no such deviation"
#endif

#endif
