/* Data of every kind: thread-local, initialized, zero, constant, and what constructors set. */

#include "program.h"

_Thread_local long own_number = 7;
_Thread_local long own_zero;
static _Thread_local _Alignas(32) char own_text[] = "thread";

static long set_by_constructors;
static const char *const names[] = {"zero", "one", "two"};

__attribute__((constructor(200))) static void second(void)
{
    set_by_constructors = set_by_constructors * 10 + 2;
}

__attribute__((constructor(101))) static void first(void)
{
    set_by_constructors = set_by_constructors * 10 + 1;
}

__attribute__((constructor)) static void last(void)
{
    set_by_constructors = set_by_constructors * 10 + 3;
}

long constructed(void)
{
    return set_by_constructors + own_text[0] - 't' + names[2][0] - 't';
}
