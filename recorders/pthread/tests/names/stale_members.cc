// As stale.cc, where members, elements, and variables that other code may set still point to what was freed. Each lock that is new has a line
// with its type.
#include <cstdio>
#include <cstdlib>
#include <cstring>
#include <functional>
#include <memory>
#include <mutex>
#include <new>
#include <vector>

#define APART __attribute__((noinline))

struct Old {
    long at;
    std::mutex old_lock;
    long more;
};

struct New {
    long at;
    std::mutex new_lock;
    long more;
};

// The only class of its size.
struct Single {
    char some[320];
    std::mutex single_lock;
};

static std::vector<std::unique_ptr<New>> news;

APART static void take(std::mutex &m) {
    m.lock();
    m.unlock();
}

APART static void says(const char *type) { std::printf("stale_members.cc:%s\n", type); }
static void says_old() { says("Old::old_lock"); }
static void says_new() { says("New::new_lock"); }

APART static std::mutex &open_new() {
    auto *made = new New;
    return made->new_lock;
}

// ---- A member of the object whose method deletes, and calls what makes another one.

APART static void add() { news.push_back(std::make_unique<New>()); }
APART static void touch() {
    for (auto &one : news)
        one->new_lock.lock(), one->at++, one->new_lock.unlock();
}

struct Server {
    Old *last;
    int count;
    APART void makes_by_template() {
        take(last->old_lock);
        delete last;
        says_new();
        add();
        touch();
        count++;
    }
    APART void makes_apart() {
        last = new Old;
        says_old();
        last->old_lock.lock(), last->old_lock.unlock();
        delete last;
        says_new();
        take(open_new());
        count++;
    }
    // The function that takes the lock was called after the lock was made, and its object is older.
    APART void take_other(std::mutex &m) {
        take(m);
        count++;
    }
    APART void makes_before_a_call() {
        last = new Old;
        says_old();
        take(last->old_lock);
        delete last;
        std::mutex &m = open_new();
        says_new();
        take_other(m);
    }
};

static void servers() {
    Server server{new Old, 0};
    says_old();
    server.makes_by_template();
    news.clear();
}

static void servers_apart() {
    Server server{nullptr, 0};
    server.makes_apart();
    std::printf("%.*s", server.count > 5, " ");
}

static void servers_before() {
    Server server{nullptr, 0};
    server.makes_before_a_call();
    std::printf("%.*s", server.count > 5, " ");
}

// ---- A structure in a frame, an array in one, and what is made without a type.

struct State {
    Old *old;
    int count;
};

static void states(int some) {
    State state{new Old, some};
    says_old();
    take(state.old->old_lock);
    delete state.old;
    says_new();
    take(open_new());
    std::printf("%.*s", state.count > 5, " ");
}

struct Table {
    Old *slots[4];
    int count;
    APART void replace() {
        says_old();
        take(slots[1]->old_lock);
        delete slots[1];
        says_new();
        take(open_new());
        count--;
    }
};

static void tables() {
    Table table{{nullptr, new Old, nullptr, nullptr}, 2};
    table.replace();
}

APART static void *raw() { return ::operator new(sizeof(New)); }

APART static void call_back(void *made) { take(*reinterpret_cast<std::mutex *>(static_cast<char *>(made) + offsetof(New, new_lock))); }

APART static void drive(State *state) {
    state->old = new Old;
    says_old();
    state->old->old_lock.lock(), state->old->old_lock.unlock();
    delete state->old;
    void *made = raw();
    new (made) New;
    says_new();
    call_back(made);
    ::operator delete(made);
}

// ---- A class that is derived from one without a lock.

struct Base {
    virtual ~Base() {}
    virtual void go() = 0;
};

struct Task : Base {
    std::mutex task_lock;
    long more;
    APART void go() override { take(task_lock); }
};

APART static std::unique_ptr<Base> make_task() { return std::make_unique<Task>(); }

struct Manager {
    Old *old;
    std::unique_ptr<Base> task;
    APART void step() {
        says_old();
        take(old->old_lock);
        delete old;
        task = make_task();
        says("Task::task_lock");
        task->go();
    }
};

static void managers() {
    Manager manager{new Old, nullptr};
    manager.step();
}

// ---- Variables that a closure has, and volatile ones.

static void closures() {
    Old *old = nullptr;
    std::function<void()> make = [&] { old = new Old; }, drop = [&] { delete old; };
    make();
    says_old();
    take(old->old_lock);
    drop();
    says_new();
    take(open_new());
}

static void volatile_ones() {
    Old *old = new Old;
    Old *volatile kept = old;
    delete old;
    void *made = raw();
    new (made) New;
    says_new();
    call_back(made);
    std::printf("%.*s", kept == made ? 0 : 1, " ");
}

// ---- What nothing else can be.

struct Owner {
    Single *single;
    APART void work() {
        single = static_cast<Single *>(std::calloc(1, sizeof(Single)));
        says("Single::single_lock");
        take(single->single_lock);
        std::free(single);
    }
};

static void owners() {
    Owner owner;
    owner.work();
}

int main(int argc, char **) {
    State state{nullptr, argc};
    owners();
    servers();
    servers_apart();
    servers_before();
    states(argc);
    tables();
    drive(&state);
    managers();
    closures();
    volatile_ones();
}
