#include "shape.hpp"

extern "C" long second_square(long side)
{
    return square(side);
}
