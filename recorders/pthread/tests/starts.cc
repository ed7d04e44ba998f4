// Threads that are started: of one function at two places and in a child, of another one, of C11, and of C++, of which two are started by one call
// and a third by another. All are joined, or, if the program is called with `detached`, none.
#include <cstring>
#include <pthread.h>
#include <sys/wait.h>
#include <threads.h>
#include <unistd.h>

#include <thread>

static bool joins;

static void *work(void *unused) { return unused; }
static void *watch(void *unused) { return unused; }
static int serve(void *) { return 0; }

static void end(pthread_t thread) {
    if (joins)
        pthread_join(thread, nullptr);
    else
        pthread_detach(thread);
}

static void start(void *(*run)(void *)) {
    pthread_t thread;
    pthread_create(&thread, nullptr, run, nullptr);
    end(thread);
}

static void start_worker_elsewhere() {
    pthread_t thread;
    pthread_create(&thread, nullptr, work, nullptr);
    end(thread);
}

static void start_in_c11() {
    thrd_t thread;
    thrd_create(&thread, serve, nullptr);
    end(thread);
}

static void end(std::thread thread) {
    if (joins)
        thread.join();
    else
        thread.detach();
}

__attribute__((noinline)) static void grow_pool() {
    end(std::thread([] {}));
    __asm__ volatile("");
}

__attribute__((noinline)) static void begin_pool() {
    grow_pool();
    __asm__ volatile("");
}

int main(int argc, char **argv) {
    joins = argc < 2 || std::strcmp(argv[1], "detached") != 0;
    start(work);
    start_worker_elsewhere();
    start(watch);
    start_in_c11();
    grow_pool();
    begin_pool();
    end(std::thread([] {}));
    pid_t child = fork();
    start(work);
    if (child == 0)
        return 0;
    waitpid(child, nullptr, 0);
}
