/* A handler comes in at every single instruction of the recorder: each kind of call is made step by step, by the processor's own means, and at each
   step in the recorder the thread sends itself a signal whose handler makes, takes and gives back locks. `jumps` has the handler jump out at one
   step after the other, and the call is made anew each time. The program says how often its handler ran. */
#include "common.h"
#include <dlfcn.h>
#include <link.h>
#include <stdbool.h>
#include <sys/mman.h>
#include <sys/syscall.h>
#include <ucontext.h>

static LOCK(known); static LOCK(outer); static LOCK(fresh_static); static LOCK(first_of_thread); static LOCK(busy);
static pthread_rwlock_t shared = PTHREAD_RWLOCK_INITIALIZER;
static pthread_mutex_t made, many[64];
static pthread_cond_t condition = PTHREAD_COND_INITIALIZER;
static uintptr_t from, to; /* the recorder's code */
static volatile long runs, steps, jump_at;
static volatile int is_stepping;
static sigjmp_buf out;

static int find(struct dl_phdr_info *info, size_t size, void *unused) {
    (void)size, (void)unused;
    if (!strstr(info->dlpi_name, "preload.so"))
        return 0;
    for (int i = 0; i < info->dlpi_phnum; i++)
        if (info->dlpi_phdr[i].p_type == PT_LOAD && info->dlpi_phdr[i].p_flags & PF_X) {
            from = info->dlpi_addr + info->dlpi_phdr[i].p_vaddr;
            to = from + info->dlpi_phdr[i].p_memsz;
        }
    return 1;
}

/* At a step: by a system call, so that the recorder isn't asked. */
static void on_step(int number, siginfo_t *info, void *context) {
    (void)number, (void)info;
    uintptr_t at = (uintptr_t)((ucontext_t *)context)->uc_mcontext.gregs[REG_RIP];
    if (!is_stepping || at < from || at >= to)
        return;
    steps++;
    if (!jump_at || steps == jump_at)
        syscall(SYS_tgkill, getpid(), (int)syscall(SYS_gettid), SIGUSR1);
}

static void make_and_take(void) {
    pthread_mutex_t *lock = malloc(sizeof *lock);
    pthread_mutex_init(lock, NULL);
    pthread_mutex_lock(lock);
    with(&many[runs % 64]);
    pthread_mutex_unlock(lock);
    pthread_mutex_destroy(lock);
    free(lock);
}

static void on_usr1(int number) {
    (void)number;
    runs++;
    make_and_take();
    if (jump_at)
        siglongjmp(out, 1);
}

static void begin_steps(void) {
    is_stepping = 1;
    __asm__ volatile("pushfq\n\torq $0x100, (%%rsp)\n\tpopfq" : : : "memory", "cc");
}
static void end_steps(void) {
    __asm__ volatile("pushfq\n\tandq $~0x100, (%%rsp)\n\tpopfq" : : : "memory", "cc");
    is_stepping = 0;
}

static void take_known(void) { with(&known); }
static void take_fresh(void) { with(&fresh_static); }
static void take_nested(void) { pthread_mutex_lock(&outer); with(&fresh_static); pthread_mutex_unlock(&outer); }
static void take_first(void) { with(&first_of_thread); }
static void fail_to_take(void) { pthread_mutex_trylock(&busy); }
static void read_it(void) { pthread_rwlock_rdlock(&shared); pthread_rwlock_unlock(&shared); }
static void make_one(void) { pthread_mutex_init(&made, NULL); with(&made); pthread_mutex_destroy(&made); }
static void allocate(void) { void *volatile p = malloc(5000); p = realloc(p, 9000); free(p); pthread_mutex_t *l = calloc(1, sizeof *l); with(l); free(l); }
static void map(void) { pthread_mutex_t *l = mmap(NULL, 8192, PROT_READ | PROT_WRITE, MAP_SHARED | MAP_ANONYMOUS, -1, 0); with(l); munmap(l, 8192); }
static void wait_for_it(void) { struct timespec past = {0, 0}; pthread_mutex_lock(&outer); pthread_cond_timedwait(&condition, &outer, &past); pthread_mutex_unlock(&outer); }
static void mask(void) { block(SIGUSR2); with(&outer); unblock(SIGUSR2); }
static void on_usr2(int number) { (void)number; }
static void install(void) { handle(SIGUSR2, on_usr2, 0); handle(SIGUSR2, on_usr2, SA_RESTART | SA_NODEFER); signal(SIGUSR2, SIG_DFL); }
static void (*const works[])(void) = {take_known, take_fresh, take_nested, fail_to_take, read_it, make_one, wait_for_it, mask, install, allocate, map};
#define WORKS ((int)(sizeof works / sizeof *works))
#define SHORT_WORKS (WORKS - 2)

static void do_in_steps(void (*work)(void)) {
    work(); /* so that the C library has found what it needs */
    steps = 0;
    begin_steps();
    work();
    end_steps();
}

/* The work, left at one step after the other, of many steps at some, until it has no further one. What it holds then is made anew. */
static void do_with_jumps(void (*work)(void)) {
    for (volatile long at = 1; at; at = steps >= at ? at + 1 + at / 16 : 0) {
        jump_at = at;
        if (sigsetjmp(out, 1) == 0) {
            steps = 0;
            begin_steps();
            work();
        }
        end_steps();
        pthread_mutex_init(&outer, NULL);
        pthread_mutex_init(&known, NULL);
        pthread_mutex_init(&fresh_static, NULL);
        pthread_rwlock_init(&shared, NULL);
    }
    jump_at = 0;
}

static void *begins(void *unused) {
    begin_steps();
    take_first();
    end_steps();
    return unused;
}

static void *holds(void *unused) {
    pthread_mutex_lock(&busy);
    return unused;
}

int main(int count, char **words) {
    struct sigaction action = {.sa_sigaction = on_step, .sa_flags = SA_SIGINFO | SA_NODEFER};
    int (*real)(int, const struct sigaction *, struct sigaction *) = dlsym(dlopen("libc.so.6", RTLD_LAZY | RTLD_NOLOAD), "sigaction");
    dl_iterate_phdr(find, NULL);
    real(SIGTRAP, &action, NULL);
    handle(SIGUSR1, on_usr1, SA_NODEFER);
    make_and_take();
    in_thread(holds);
    bool jumps = count > 1 && strcmp(words[1], "jumps") == 0;
    for (int i = 0; jumps && i < SHORT_WORKS; i++)
        do_with_jumps(works[i]);
    for (int i = 0; !jumps && i < WORKS; i++)
        do_in_steps(works[i]);
    if (!jumps)
        in_thread(begins);
    printf("%ld\n", runs);
    return 0;
}
