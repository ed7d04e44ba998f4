/* A server, which reads requests from a pipe until it gets SIGTERM: server PIPE ANSWERED SERVED. Each is served by a thread, which takes two locks in
   the order that the request says. For each the two files get a byte: the second one when it was served; the first one then, too, so that the next
   request may come, but in the runs of `provoke`, which hold threads back, at once. */
#include <fcntl.h>
#include <pthread.h>
#include <signal.h>
#include <stdlib.h>
#include <unistd.h>

static pthread_mutex_t settings = PTHREAD_MUTEX_INITIALIZER, rows = PTHREAD_MUTEX_INITIALIZER, journal = PTHREAD_MUTEX_INITIALIZER;

static int answered, served;

static void stop(int number) {
    (void)number;
    _exit(0);
}

static void say(int file) {
    if (write(file, ".", 1) != 1)
        _exit(2);
}

static void *has_served(void *with) {
    say(served);
    if (!getenv("LOCKDEP_PROVOKE_PLAN"))
        say(answered);
    return with;
}

static void *read_rows(void *with) {
    pthread_mutex_lock(&rows);
    pthread_mutex_lock(&journal);
    pthread_mutex_unlock(&journal);
    pthread_mutex_unlock(&rows);
    return has_served(with);
}

static void *write_journal(void *with) {
    pthread_mutex_lock(&journal);
    pthread_mutex_lock(&rows);
    pthread_mutex_unlock(&rows);
    pthread_mutex_unlock(&journal);
    return has_served(with);
}

int main(int count, char **words) {
    char request;
    signal(SIGTERM, stop);
    int requests = count > 3 ? open(words[1], O_RDWR) : -1;
    answered = open(words[2], O_WRONLY | O_CREAT | O_TRUNC, 0600);
    served = open(words[3], O_WRONLY | O_CREAT | O_TRUNC, 0600);
    pthread_mutex_lock(&settings);
    pthread_mutex_unlock(&settings);
    while (read(requests, &request, 1) == 1) {
        pthread_t thread;
        pthread_create(&thread, NULL, request == 'r' ? read_rows : write_journal, NULL);
        pthread_detach(thread);
        if (getenv("LOCKDEP_PROVOKE_PLAN"))
            say(answered);
    }
    return 1;
}
