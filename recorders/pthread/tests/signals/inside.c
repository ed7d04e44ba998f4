/* What handlers do with locks inside the C library: small programs, each a row that runs alone. What is found is found with `--signals all` only. */
#include "rows.h"

static char *volatile piece;
static volatile sig_atomic_t is_over;
static void copies(int number) { (void)number; piece = strdup("reload"); }
static void prints(int number) { printf("signal %d\n", number); }
static void forks(int number) { pid_t child = fork(); (void)number; if (child == 0) _exit(0); waitpid(child, NULL, 0); }

/* malloc in a handler, and in main with the signal unblocked. */
WRONG(malloc, "double libc:malloc SIGUSR1") { handle(SIGUSR1, copies, 0); free(malloc(100)); send(SIGUSR1); free(piece); }

/* The process calls malloc once, in main, with the signal unblocked; the handler frees what that gave. */
static void frees(int number) { (void)number; free(piece); }
WRONG(first_malloc, "double libc:malloc SIGUSR1") { handle(SIGUSR1, frees, 0); piece = malloc(100); send(SIGUSR1); }

/* The handler allocates, and so does main, with the signal blocked; unblocked it waits alone. */
RIGHT(blocked_malloc) {
    sigset_t none = nothing();
    block(SIGUSR1); handle(SIGUSR1, copies, 0); piece = malloc(100); free(piece);
    send(SIGUSR1); sigsuspend(&none); free(piece);
}

/* printf in a handler, and in main with the signal unblocked. */
WRONG(printf, "double libc:stdout SIGUSR1") { handle(SIGUSR1, prints, 0); for (int i = 0; i < 3; i++) printf("line %d\n", i); send(SIGUSR1); }

/* Handler and main print, main with the signal blocked; unblocked it waits alone. */
RIGHT(blocked_printf) {
    sigset_t none = nothing();
    block(SIGUSR1); handle(SIGUSR1, prints, 0); printf("line\n");
    send(SIGUSR1); sigsuspend(&none); fputs("line\n", stdout);
}

/* The handler flushes a stream that main reads, and says so on stderr, as main does. */
static FILE *stream;
static void flushes(int number) { (void)number; fflush(stream); perror("handler"); }
WRONG(streams, "double libc:stderr SIGUSR1; double libc:stream SIGUSR1") {
    char text[100] = "one line\n", line[100];
    stream = fmemopen(text, sizeof text, "r+"); fgetc(stream); handle(SIGUSR1, flushes, 0);
    if (fgets(line, sizeof line, stream)) fprintf(stderr, "%s", line);
    send(SIGUSR1);
}

/* localtime in a handler, and strftime, which asks for the time zone, in main with the signal unblocked. */
static void asks_for_time(int number) { struct tm told; time_t now = 0; (void)number; localtime_r(&now, &told); }
WRONG(localtime, "double libc:timezone SIGALRM") {
    char text[100]; struct tm told = {.tm_mday = 1}; struct tm first; time_t now = 0;
    localtime_r(&now, &first); handle(SIGALRM, asks_for_time, 0);
    strftime(text, sizeof text, "%Z", &told);
    send(SIGALRM);
}

/* syslog in a handler, and in main with the signal unblocked. */
static void logs(int number) { syslog(LOG_DEBUG, "signal %d", number); }
WRONG(syslog, "double libc:syslog SIGTERM") { syslog(LOG_DEBUG, "begins"); handle(SIGTERM, logs, 0); syslog(LOG_DEBUG, "line"); send(SIGTERM); }

/* The handler forks while there is a second thread: fork waits for what main allocates, with the signal unblocked. */
static void *awaits_end(void *unused) { while (!is_over) usleep(1000); return unused; }
WRONG(fork, "double libc:malloc SIGUSR1") {
    pthread_t thread;
    block(SIGUSR1); pthread_create(&thread, NULL, awaits_end, NULL); unblock(SIGUSR1);
    handle(SIGUSR1, forks, 0); piece = malloc(100); send(SIGUSR1);
    is_over = 1; pthread_join(thread, NULL); free(piece);
}

/* The handler forks, and there is no other thread, so fork waits for nobody. */
RIGHT(fork_alone) { handle(SIGUSR1, forks, 0); piece = malloc(100); send(SIGUSR1); free(piece); }
