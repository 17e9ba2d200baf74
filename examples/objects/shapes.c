/* A file with what compilers make: code, constants, data, zeros, thread-local data, weak names. */
extern int outside(int);
static int calls;
int table[4] = {1, 2, 3, 4};
int *const chosen = &table[2];
__thread int own = 7;
__attribute__((weak)) int weak_one(void) { return own; }

int twice(int x)
{
    calls++;
    return outside(x) + weak_one() + *chosen;
}

int choose(int x)
{
    switch (x) {
    case 0: return 3;
    case 1: return 1;
    case 2: return 4;
    case 3: return 15;
    case 4: return twice(x);
    default: return calls;
    }
}
