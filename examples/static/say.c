/* Saying a line, by the system's call alone. */

#include "program.h"

static long put(const char *text, long length)
{
    long result;
    __asm__ volatile("syscall" : "=a"(result) : "a"(1L), "D"(1L), "S"(text), "d"(length) : "rcx", "r11", "memory");
    return result;
}

void say(const char *name, long number)
{
    char line[64];
    char digits[24];
    long at = 0, count = 0;
    visits++;
    while (name[at] != 0 && at < 30) {
        line[at] = name[at];
        at++;
    }
    line[at++] = ' ';
    if (number < 0) {
        line[at++] = '-';
        number = -number;
    }
    do {
        digits[count++] = (char)('0' + number % 10);
        number /= 10;
    } while (number != 0);
    while (count > 0)
        line[at++] = digits[--count];
    line[at++] = '\n';
    put(line, at);
}
