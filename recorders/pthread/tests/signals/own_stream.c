/* The handler writes to a stream of its own, and main to others with the signal unblocked: no single stream is locked both ways. */
#include "common.h"
static char text[100], more[100];
static FILE *own, *other;
static void on_usr1(int s) { fprintf(own, "signal %d\n", s); }
int main(void) {
    own = fmemopen(text, sizeof text, "w"); other = fmemopen(more, sizeof more, "w"); fputs("begins\n", own); fputs("begins\n", other);
    handle(SIGUSR1, on_usr1, 0); fputs("line\n", other); putc('.', stdout); fflush(stdout);
    kill(getpid(), SIGUSR1);
}
