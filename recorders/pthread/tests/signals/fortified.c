/* As inside.c, with printf as _FORTIFY_SOURCE has it. */
#define _FORTIFY_SOURCE 2
#include "rows.h"

/* printf in a handler, and in main with the signal unblocked. */
static void prints(int number) { printf("signal %d\n", number); }
WRONG(fortified, "double libc:stdout SIGUSR1") { printf("begins %d\n", 0); handle(SIGUSR1, prints, 0); printf("line %d\n", 1); send(SIGUSR1); }
