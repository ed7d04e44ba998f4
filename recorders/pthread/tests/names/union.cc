#include <cstring>
#include <mutex>
#include <pthread.h>
struct Base { virtual ~Base() {} std::mutex bm; };
union U {
    struct { int a; pthread_mutex_t m1; } x;
    struct { int b; pthread_mutex_t m2; } y;
};
int main(int argc, char **) {
    if (argc > 5) { Base *b = new Base; b->bm.lock(); }
    U *u = new U;
    memset(u, 0, sizeof *u);
    pthread_mutex_lock(&u->x.m1);
    pthread_mutex_unlock(&u->x.m1);
}
