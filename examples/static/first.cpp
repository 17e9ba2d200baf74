#include "shape.hpp"

namespace {
struct Counter {
    virtual long next() { return ++count; }
    long count = 40;
};
}

extern "C" long first_square(long side)
{
    static Counter counter;
    Counter *one = &counter;
    return square(side) + one->next();
}
