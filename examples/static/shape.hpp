// An inline function with a static variable: both files have it, and the program has it once.

#include "program.h"

template <typename T> inline T square(T side)
{
    static T calls = 0;
    calls += 1;
    return side * side + 1000 * calls;
}
