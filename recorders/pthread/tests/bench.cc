// What the recorder costs: one kind of work, and how many nanoseconds each step of it takes, of processes microseconds.
#include <algorithm>
#include <chrono>
#include <csignal>
#include <cstdio>
#include <cstdlib>
#include <cstring>
#include <memory>
#include <mutex>
#include <pthread.h>
#include <spawn.h>
#include <sys/syscall.h>
#include <sys/wait.h>
#include <unistd.h>
#include <vector>

static double since(std::chrono::steady_clock::time_point start, double steps) {
    std::chrono::duration<double, std::nano> took = std::chrono::steady_clock::now() - start;
    return took.count() / steps;
}

static pthread_mutex_t lock = PTHREAD_MUTEX_INITIALIZER;

static double locks(int count) {
    auto start = std::chrono::steady_clock::now();
    for (int i = 0; i < count; i++) {
        pthread_mutex_lock(&lock);
        pthread_mutex_unlock(&lock);
    }
    return since(start, 2.0 * count);
}

__attribute__((noinline)) static double deep(int depth, int count) {
    double took = depth ? deep(depth - 1, count) : locks(count);
    asm volatile("" ::: "memory"); // else the call could become a jump
    return took;
}

static double pieces(int count) {
    auto start = std::chrono::steady_clock::now();
    for (int i = 0; i < count; i++) {
        void *volatile piece = malloc(100);
        free(piece);
    }
    return since(start, count);
}

static volatile int runs;
static void counts(int) { runs = runs + 1; }

// Of many rounds the least: each is short enough to be undisturbed.
template <typename Work> static double least(int rounds, int count, Work work) {
    double took = 1e18;
    for (int i = 0; i < rounds; i++) {
        auto start = std::chrono::steady_clock::now();
        for (int j = 0; j < count; j++)
            work();
        took = std::min(took, since(start, count));
    }
    return took;
}

static double handlers() {
    signal(SIGUSR1, counts);
    pid_t process = getpid(), thread = (pid_t)syscall(SYS_gettid);
    return least(200, 400, [=] { syscall(SYS_tgkill, process, thread, SIGUSR1); });
}

static double masks() {
    sigset_t set;
    sigemptyset(&set);
    sigaddset(&set, SIGUSR1);
    signal(SIGUSR1, counts);
    return least(200, 400, [&] {
               pthread_sigmask(SIG_BLOCK, &set, nullptr);
               pthread_sigmask(SIG_UNBLOCK, &set, nullptr);
           }) / 2;
}

struct Object {
    std::mutex lock;
    int value = 0;
};

static double objects(int count) {
    auto start = std::chrono::steady_clock::now();
    {
        std::vector<std::unique_ptr<Object>> all;
        for (int i = 0; i < count; i++) {
            all.push_back(std::make_unique<Object>());
            std::lock_guard<std::mutex> guard(all.back()->lock);
            all.back()->value = i;
        }
    }
    return since(start, count);
}

static double processes(char *program, int count) {
    char *command[] = {program, nullptr};
    auto start = std::chrono::steady_clock::now();
    for (int i = 0; i < count; i++) {
        pid_t process;
        if (posix_spawn(&process, program, nullptr, nullptr, command, environ) != 0 || waitpid(process, nullptr, 0) < 0)
            return -1;
    }
    return since(start, 1e3 * count);
}

int main(int argc, char **argv) {
    const char *work = argc > 1 ? argv[1] : "";
    double took = !strcmp(work, "locks")     ? locks(5000000)
                  : !strcmp(work, "few-locks") ? locks(50000)
                  : !strcmp(work, "deep")    ? deep(20, 5000000)
                  : !strcmp(work, "pieces")  ? pieces(5000000)
                  : !strcmp(work, "objects") ? objects(20000)
                  : !strcmp(work, "handlers") ? handlers()
                  : !strcmp(work, "masks")   ? masks()
                  : argc > 2                 ? processes(argv[2], 100)
                                             : -1;
    printf("%.1f\n", took);
    return took < 0;
}
