/* The queue of Boost.Lockfree: many threads put and take. */
#include "queues.h"

#include <boost/lockfree/queue.hpp>

static boost::lockfree::queue<long, boost::lockfree::capacity<64>> queue;

int main(int count, char **words) {
    return try_queue(count, words, 4, [](long value) { return queue.push(value); }, [](long &value) { return queue.pop(value); });
}
