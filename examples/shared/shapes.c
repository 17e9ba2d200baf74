/* A shared object with symbols of each kind: functions, an indirect one, data, thread-local data, weak and hidden names. */
extern double sqrt(double);
extern int outside(int) __attribute__((weak));
int table[4] = {1, 2, 3, 4};
__thread int own = 7;
__attribute__((visibility("hidden"))) int hidden(int x) { return x + table[x & 3]; }
__attribute__((visibility("protected"))) int guarded(int x) { return hidden(x) + own; }
__attribute__((weak)) int weak_one(void) { return outside ? outside(own) : own; }
double root(double x) { return sqrt(x); }
static int once(int x) { return x * 3; }
static int (*chosen(void))(int) { return once; }
int picked(int x) __attribute__((ifunc("chosen")));
