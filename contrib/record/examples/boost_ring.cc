/* The ring of Boost.Lockfree: one thread puts and one takes. */
#include "queues.h"

#include <boost/lockfree/spsc_queue.hpp>

static boost::lockfree::spsc_queue<long, boost::lockfree::capacity<64>> ring;

int main(int count, char **words) {
    return try_queue(count, words, 2, [](long value) { return ring.push(value); }, [](long &value) { return ring.pop(value); });
}
