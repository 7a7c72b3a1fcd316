/* Message passing and store buffering, round after round: each of two threads writes a message and then a flag, and looks for the
   other's flag and message; then it stores to a word of its own, and after a barrier loads the other's. */
#include "threads.h"

#include <stdatomic.h>

struct words {
    _Alignas(64) atomic_long message;
    _Alignas(64) atomic_long flag;
    _Alignas(64) atomic_long own;
};

static struct words words_of[2];
static long times, stale[2];

static void work(long thread) {
    struct words *mine = &words_of[thread], *others = &words_of[!thread];
    for (long i = 1; i <= times; i++) {
        long value = 2 * i + thread;
        atomic_store_explicit(&mine->message, value, memory_order_relaxed);
        atomic_store_explicit(&mine->flag, value, memory_order_release);
        long flag = atomic_load_explicit(&others->flag, memory_order_acquire);
        stale[thread] += atomic_load_explicit(&others->message, memory_order_relaxed) < flag;
        atomic_store_explicit(&mine->own, value, memory_order_relaxed);
        atomic_thread_fence(memory_order_seq_cst);
        atomic_load_explicit(&others->own, memory_order_relaxed);
    }
}

int main(int count, char **words) {
    times = times_of(count, words, 3000);
    record_threads(2, work);
    printf("stale %ld\n", stale[0] + stale[1]);
    return 0;
}
