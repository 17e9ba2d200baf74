/* A member of the lib group that the program needs. It needs another member in its turn. */

#include "program.h"

long library_base(void);

long library_answer(void)
{
    return library_base() + 2;
}
