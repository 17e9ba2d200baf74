/* A program with thread-local data and zeros, data, many zeros, and calls of the C library. */
#include <stdio.h>

__thread int counted = 3;
__thread int uncounted[5];
int numbers[4] = {1, 2, 3, 4};
char room[70000];

int main(void) {
    for (int i = 0; i < 4; i++) uncounted[i] = numbers[i] * counted;
    printf("%d %d\n", uncounted[2], room[69999]);
    return 0;
}
