/* The stack of Boost.Lockfree: many threads put and take. */
#include "queues.h"

#include <boost/lockfree/stack.hpp>

static boost::lockfree::stack<long, boost::lockfree::capacity<64>> stack;

int main(int count, char **words) {
    return try_queue(count, words, 4, [](long value) { return stack.push(value); }, [](long &value) { return stack.pop(value); });
}
