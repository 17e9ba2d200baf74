/* The program: what each kind of reference leads to is said, and the status is a sum of it. */

#include "program.h"

extern long visits_of_all __attribute__((alias("visits_here")));
long visits_here = 0;

static long switch_on(long n)
{
    switch (n) {
    case 0: return 5;
    case 1: return 17;
    case 2: return 2;
    case 3: return 91;
    case 4: return 33;
    case 5: return 8;
    default: return 0;
    }
}

int program(void)
{
    own_zero += own_number;
    say("thread", own_zero);
    say("constructors", constructed());
    say("first", first_square(3));
    say("second", second_square(4));
    say("switch", switch_on(own_number - 4));
    say("library", library_answer());
    say("weak", nowhere ? nowhere() : 0);
    say("visits", visits);
    return (int)(library_answer() + visits_of_all);
}
