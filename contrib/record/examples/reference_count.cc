/* Reference counts of std::shared_ptr: each thread copies shared pointers and lets them go. */
#include "threads.h"

#include <memory>

static std::shared_ptr<long> shared[4];
static long times;

int main(int count, char **words) {
    times = times_of(count, words, 1000);
    for (auto &each : shared) each = std::make_shared<long>(0);
    record_threads(4, [](long thread) {
        for (long i = 0; i < times; i++) std::shared_ptr<long> copy = shared[(i + thread) % 4];
    });
    printf("count %ld\n", shared[0].use_count());
    return 0;
}
