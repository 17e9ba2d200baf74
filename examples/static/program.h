/* What the files of the program share. */

#ifdef __cplusplus
#define THREAD __thread
extern "C" {
#else
#define THREAD _Thread_local
#endif

/* Says a line: a name and a number. */
void say(const char *name, long number);

/* A common variable: no file of the program defines it (-fcommon). */
#ifndef __cplusplus
long visits;
#endif

extern THREAD long own_number;
extern THREAD long own_zero;

long first_square(long side);
long second_square(long side);
long constructed(void);
long library_answer(void);

/* A function that no file defines; a weak reference to it is 0. */
extern long nowhere(void) __attribute__((weak));

#ifdef __cplusplus
}
#endif
