/* A task that a timer's signal interrupts wherever it is, within the recorder's calls too: signals TRACE. Each interrupt is
   written whole or left out whole, and nothing of the task's own is lost. */
#include <signal.h>
#include <stdio.h>
#include <sys/time.h>

#define LOCKDEP_RECORD_CODE
#include "../lockdep_record.h"

#define TURNS 100000

static struct ldr_task task;
static char bytes[1024], place_bytes[1024];
static unsigned long interrupts;

static int put(void *file, const char *from, size_t size) {
    return fwrite(from, 1, size, (FILE *)file) == size ? 0 : -1;
}

static int put_nothing(void *cookie, const char *from, size_t size) {
    (void)cookie, (void)from, (void)size;
    return 0;
}

static void on_signal(int number) {
    (void)number;
    interrupts++;
    ldr_enter(&task, LDR_HARDIRQ);
    ldr_acquire(&task, "handler", 0, LDR_W);
    ldr_release(&task, "handler", 0);
    ldr_leave(&task);
}

static void run(void) {
    for (unsigned i = 0; i < TURNS; i++) {
        ldr_acquire(&task, "outer", 0, LDR_W);
        ldr_acquire(&task, "inner", 0, LDR_W);
        ldr_release(&task, "outer", 0);
        ldr_release(&task, "inner", 0);
    }
}

static void set_timer(long microseconds) {
    struct itimerval every = {{0, microseconds}, {0, microseconds}};
    setitimer(ITIMER_REAL, &every, NULL);
}

int main(int argc, char **argv) {
    FILE *trace = argc > 1 ? fopen(argv[1], "w") : NULL;
    if (!trace)
        return 2;
    ldr_begin(&task, bytes, sizeof bytes, put, trace);
    ldr_places(&task, place_bytes, sizeof place_bytes, put_nothing, NULL);
    signal(SIGALRM, on_signal);
    set_timer(20);
    run();
    set_timer(0);
    uint32_t left = task.left[LDR_LEFT_INTERRUPTS];
    ldr_end(&task);
    fclose(trace);
    printf("%lu %lu\n", interrupts, (unsigned long)left);
    return 0;
}
