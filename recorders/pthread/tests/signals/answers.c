/* What the calls that set handlers answer, for each signal, with flags and masks of each kind, from a handler, and from eight threads at once: the same
   with the recorder as without it. */
#include "common.h"

static void plain(int number) { (void)number; }
static void full(int number, siginfo_t *info, void *context) { (void)number, (void)info, (void)context; }
static const int flags[] = {0, SA_RESTART, SA_NODEFER, SA_ONSTACK, SA_RESETHAND, SA_SIGINFO, SA_SIGINFO | SA_NODEFER | SA_RESTART, SA_NOCLDSTOP,
                            SA_NOCLDWAIT};
#define FLAGS (sizeof flags / sizeof *flags)

static const char *name(const void *handler) {
    if (handler == (void *)SIG_DFL)
        return "default";
    if (handler == (void *)SIG_IGN)
        return "ignored";
    return handler == (void *)plain ? "plain" : handler == (void *)full ? "full" : handler == (void *)SIG_HOLD ? "held" : "another";
}

static void tell(const char *what, int answer, const struct sigaction *action) {
    printf(" %s %d", what, answer);
    if (answer == 0)
        printf(" %s %x %lx", name((void *)action->sa_handler), action->sa_flags, *(const unsigned long *)&action->sa_mask);
}

static void set_one(int number, unsigned which, int kind) {
    struct sigaction action = {.sa_flags = flags[which]}, old = {.sa_flags = 0}, now = {.sa_flags = 0};
    sigemptyset(&action.sa_mask);
    if (kind)
        sigaddset(&action.sa_mask, kind * 7);
    if (kind == 3)
        action.sa_handler = which & 1 ? SIG_DFL : SIG_IGN;
    else if (flags[which] & SA_SIGINFO)
        action.sa_sigaction = full;
    else
        action.sa_handler = plain;
    printf("%d %u %d:", number, which, kind);
    tell("was", sigaction(number, &action, &old), &old);
    tell("is", sigaction(number, NULL, &now), &now);
    putchar('\n');
}

static void set_each(void) {
    for (int number = 1; number <= 64; number++)
        for (unsigned which = 0; which < FLAGS; which++)
            for (int kind = 0; kind < 4; kind++)
                set_one(number, which, kind);
}

/* What is set after a handler that is there for one signal only has run, and after it was set anew. */
static void set_once(int flags) {
    struct sigaction action = {.sa_flags = SA_RESETHAND | flags}, now;
    if (flags & SA_SIGINFO)
        action.sa_sigaction = full;
    else
        action.sa_handler = plain;
    sigaction(SIGUSR2, &action, NULL);
    raise(SIGUSR2);
    tell("after a run", sigaction(SIGUSR2, NULL, &now), &now);
    sigaction(SIGUSR2, &now, NULL);
    tell("set again", sigaction(SIGUSR2, NULL, &now), &now);
    putchar('\n');
}

static void set_otherwise(void) {
    struct sigaction now;
    set_once(0);
    set_once(SA_SIGINFO);
    set_once(SA_NODEFER);
    printf("%s %s %s\n", name((void *)signal(SIGUSR1, plain)), name((void *)signal(SIGUSR1, SIG_DFL)), name((void *)signal(SIGUSR1, plain)));
    siginterrupt(SIGUSR1, 1);
    signal(SIGUSR1, plain);
    sigaction(SIGUSR1, NULL, &now);
    printf("%s %x %lx\n", name((void *)now.sa_handler), now.sa_flags, *(unsigned long *)&now.sa_mask);
    printf("%s ", name((void *)sigset(SIGUSR1, SIG_HOLD)));
    printf("%s ", name((void *)sigset(SIGUSR1, plain)));
    printf("%s\n", name((void *)sigset(SIGUSR1, SIG_DFL)));
    printf("%s ", name((void *)sysv_signal(SIGUSR1, plain)));
    sigaction(SIGUSR1, NULL, &now);
    printf("%s %x %lx\n", name((void *)now.sa_handler), now.sa_flags, *(unsigned long *)&now.sa_mask);
    printf("%d %d %d\n", signal(0, plain) == SIG_ERR, signal(SIGKILL, plain) == SIG_ERR, signal(65, plain) == SIG_ERR);
}

static volatile int is_own;

static void asks(int number) {
    struct sigaction now;
    sigaction(number, NULL, &now);
    is_own = now.sa_handler == asks && !(now.sa_flags & SA_SIGINFO);
}

static volatile int stops;
static int torn;

static int is_torn(const struct sigaction *action) {
    if (action->sa_handler == plain)
        return (action->sa_flags & SA_SIGINFO) != 0;
    return action->sa_sigaction == full ? !(action->sa_flags & SA_SIGINFO) : action->sa_handler != SIG_DFL;
}

static void *sets(void *is_full) {
    struct sigaction action = {.sa_handler = plain}, old;
    if (is_full)
        action = (struct sigaction){.sa_sigaction = full, .sa_flags = SA_SIGINFO};
    while (!stops) {
        sigaction(SIGUSR2, &action, &old);
        __atomic_fetch_add(&torn, is_torn(&old), __ATOMIC_RELAXED);
    }
    return NULL;
}

static void set_at_once(void) {
    pthread_t threads[8];
    signal(SIGUSR2, plain);
    for (int i = 0; i < 8; i++)
        pthread_create(&threads[i], NULL, sets, i % 2 ? threads : NULL);
    for (int i = 0; i < 2000; i++)
        kill(getpid(), SIGUSR2);
    stops = 1;
    for (int i = 0; i < 8; i++)
        pthread_join(threads[i], NULL);
}

int main(void) {
    set_each();
    set_otherwise();
    signal(SIGUSR1, asks);
    raise(SIGUSR1);
    set_at_once();
    printf("from a handler %d, torn %d\n", is_own, torn);
}
