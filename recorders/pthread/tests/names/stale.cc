// A lock in an object that lies where one of another type did, whose pointers are still there. Each lock that is new has a line with its type.
#include <cstdio>
#include <list>
#include <memory>
#include <mutex>
#include <vector>

#define APART __attribute__((noinline))

struct Old {
    long at;
    std::mutex m;
    Old() : at(1) {}
    APART void replace();
    APART void replace_far();
};

struct New {
    long at;
    std::mutex m;
    New() : at(2) {}
};

static volatile int some = 2;
static New *global;

APART static void take(std::mutex &m) {
    m.lock();
    m.unlock();
}

// The class of the next lock that is taken.
APART static void says(const char *type) { std::printf("stale.cc:%s::m\n", type); }

APART static New *make_new() { return new New; }
APART static void drop(Old *o) { delete o; }
APART static bool is_same(const void *a, const void *b) { return a == b; }

static void here() {
    says("Old");
    Old *o = new Old;
    o->m.lock();
    o->m.unlock();
    delete o;
    says("New");
    New *n = new New;
    n->m.lock();
    n->m.unlock();
    delete n;
}

static void called() {
    says("Old");
    Old *o = new Old;
    take(o->m);
    drop(o);
    says("New");
    New *n = make_new();
    take(n->m);
    delete n;
}

APART static void passed_on(New *n) { take(n->m); }

static void passes() {
    says("Old");
    Old *o = new Old;
    take(o->m);
    delete o;
    says("New");
    New *n = new New;
    passed_on(n);
    delete n;
}

static void kept() {
    says("Old");
    Old *o = new Old;
    take(o->m);
    drop(o);
    says("New");
    New *n = make_new();
    take(n->m);
    some += is_same(o, n) ? 0 : 1;
    delete n;
}

static void owned() {
    says("Old");
    std::unique_ptr<Old> o(new Old);
    o->m.lock();
    o->m.unlock();
    Old *raw = o.get();
    o.reset();
    says("New");
    std::unique_ptr<New> n(new New);
    n->m.lock();
    n->m.unlock();
    some += is_same(raw, n.get()) ? 0 : 1;
}

static void owned_apart() {
    says("Old");
    Old *o = new Old;
    take(o->m);
    drop(o);
    says("New");
    std::unique_ptr<New> n(make_new());
    take(n->m);
    some += is_same(o, n.get()) ? 0 : 1;
}

static void made() {
    says("Old");
    auto o = std::make_shared<Old>();
    take(o->m);
    Old *raw = o.get();
    o.reset();
    says("New");
    auto n = std::make_shared<New>();
    take(n->m);
    some += is_same(raw, n.get()) ? 0 : 1;
}

APART static void drops(Old *o) {
    delete o;
    says("New");
    New *n = new New;
    take(n->m);
    delete n;
}

APART static void drops_far(Old *o) {
    drop(o);
    says("New");
    New *n = make_new();
    take(n->m);
    some += is_same(o, n) ? 0 : 1;
    delete n;
}

static void drops_below() {
    says("Old");
    Old *o = new Old;
    take(o->m);
    drops(o);
    Old *other = new Old;
    drops_far(other);
    some += is_same(o, other) ? 0 : 1;
}

// A pointer in a global variable, which nobody in a frame has.
APART static void drops_for_global(Old *o) {
    drop(o);
    says("New");
    global = make_new();
    take(global->m);
    delete global;
}

static void global_one() {
    Old *o = new Old;
    drops_for_global(o);
    some += is_same(o, global) ? 0 : 1;
}

// A pointer without a type, which says nothing.
APART static void take_any(void *p) { take(static_cast<New *>(p)->m); }

static void any() {
    says("Old");
    Old *o = new Old;
    take(o->m);
    drop(o);
    says("New");
    void *n = make_new();
    take_any(n);
    some += is_same(o, n) ? 0 : 1;
    delete static_cast<New *>(n);
}

static void lists() {
    says("Old");
    std::list<Old> o;
    o.emplace_back();
    take(o.front().m);
    Old *first = &o.front();
    o.clear();
    says("New");
    std::list<New> n;
    n.emplace_back();
    take(n.front().m);
    some += is_same(first, &n.front()) ? 0 : 1;
}

static void vectors() {
    says("Old");
    auto *o = new std::vector<Old>(3);
    Old *second = &(*o)[1];
    take(second->m);
    delete o;
    says("New");
    std::vector<New> n(3);
    take(n[1].m);
    some += is_same(second, &n[1]) ? 0 : 1;
}

static void rounds() {
    for (int i = 0, all = some; i < all; i++) {
        if (i == 0)
            says("Old");
        Old *o = new Old;
        take(o->m);
        drop(o);
        if (i == 0)
            says("New");
        New *n = make_new();
        take(n->m);
        delete n;
    }
}

static void raw() {
    says("Old");
    void *memory = operator new(sizeof(Old));
    Old *o = new (memory) Old;
    take(o->m);
    o->~Old();
    operator delete(memory);
    says("New");
    memory = operator new(sizeof(New));
    New *n = new (memory) New;
    take(n->m);
    some += is_same(o, n) ? 0 : 1;
    operator delete(memory);
}

struct Holder {
    Old *o;
    New *n;
    APART void work() {
        says("Old");
        o = new Old;
        take(o->m);
        delete o;
        says("New");
        n = new New;
        take(n->m);
        delete n;
    }
    APART void later() { take(n->m); }
};

static void members() {
    Holder holder;
    holder.work();
}

static void members_later() {
    Holder holder;
    holder.o = new Old;
    drop(holder.o);
    holder.n = make_new();
    says("New");
    holder.later();
}

void Old::replace() {
    delete this;
    says("New");
    New *n = new New;
    take(n->m);
    delete n;
}

void Old::replace_far() {
    drop(this);
    says("New");
    passed_on(make_new());
}

static void own() {
    Old *o = new Old;
    o->replace();
    Old *other = new Old;
    other->replace_far();
}

int main() {
    here();
    called();
    passes();
    kept();
    owned();
    owned_apart();
    made();
    drops_below();
    global_one();
    any();
    lists();
    vectors();
    raw();
    members();
    members_later();
    own();
    rounds(); // the last, since a compiler may have its first round apart
}
