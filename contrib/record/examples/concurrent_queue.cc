/* The queue moodycamel::ConcurrentQueue: many threads put and take. Tokens made before the recording have what its threads share. */
#include "queues.h"

#include <concurrentqueue/concurrentqueue.h>

static moodycamel::ConcurrentQueue<long> queue(4096);

int main(int count, char **words) {
    static moodycamel::ProducerToken first(queue), second(queue);
    return try_queue(
        count, words, 4,
        [](long value) { return queue.enqueue(value <= queue_times ? first : second, value); }, [](long &value) { return queue.try_dequeue(value); });
}
