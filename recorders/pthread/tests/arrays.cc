// Arrays of few small objects, and objects of several locks. Each case is run by itself. Two threads take locks of two arrays in both
// orders, and never two elements in both: a circle of classes. In the other cases there is none.
#include <cstdlib>
#include <deque>
#include <memory>
#include <mutex>
#include <string>
#include <thread>
#include <utility>
#include <vector>

struct Account {
    std::mutex lock;
    int balance = 0;
};

struct Journal {
    long lines = 0;
    std::mutex lock;
};

struct Named { // `new` writes how many there are before the first of these
    std::string name;
    std::mutex lock;
};

struct Pair {
    std::mutex first, second;
};

struct Lines {
    alignas(64) std::mutex a;
    alignas(64) std::mutex b;
    alignas(64) std::mutex c;
};

struct Shards {
    std::mutex shard[5];
    std::mutex all;
};

using guard = std::lock_guard<std::mutex>;
#define APART __attribute__((noinline))

template <class A, class B> APART void pay(A &a, B &b) {
    guard first(a.lock);
    guard second(b.lock);
}

template <class A, class B> APART void audit(A &a, B &b) {
    guard first(b.lock);
    guard second(a.lock);
}

template <class A, class B> APART void both_ways(A &&accounts, B &&journals) {
    std::thread([&] { pay(accounts[0], journals[0]); }).join();
    std::thread([&] { audit(accounts[1], journals[1]); }).join();
}

APART void by_vector() { both_ways(std::vector<Account>(4), std::vector<Journal>(4)); }
APART void by_deque() { both_ways(std::deque<Account>(4), std::deque<Journal>(4)); }
APART void by_new() { both_ways(std::unique_ptr<Account[]>(new Account[4]), std::unique_ptr<Named[]>(new Named[3])); }

APART void by_calloc() {
    auto accounts = static_cast<Account *>(calloc(4, sizeof(Account)));
    auto journals = static_cast<Journal *>(calloc(3, sizeof(Journal)));
    both_ways(accounts, journals);
    free(journals);
    free(accounts);
}

// Nothing tells that it is an array but that each is taken by the same calls.
APART void by_malloc() {
    auto accounts = static_cast<Account *>(malloc(4 * sizeof(Account)));
    auto journals = static_cast<Journal *>(malloc(4 * sizeof(Journal)));
    for (int i = 0; i < 4; i++) {
        new (&accounts[i]) Account;
        new (&journals[i]) Journal;
        guard one(accounts[i].lock);
        guard two(journals[i].lock);
    }
    both_ways(accounts, journals);
    free(journals);
    free(accounts);
}

// Nothing tells that it is an array but how many there are: each is taken by a call of its own.
template <int at, class A> APART void take_alone(A *elements) { guard one(elements[at].lock); }

template <class A, int... at> APART void take_each(A *elements, std::integer_sequence<int, at...>) {
    (new (&elements[at]) A, ...);
    (take_alone<at>(elements), ...);
}

template <int count> APART void by_size() {
    auto accounts = static_cast<Account *>(malloc(count * sizeof(Account)));
    auto journals = static_cast<Journal *>(malloc(count * sizeof(Journal)));
    take_each(accounts, std::make_integer_sequence<int, count>());
    take_each(journals, std::make_integer_sequence<int, count>());
    both_ways(accounts, journals);
    free(journals);
    free(accounts);
}

APART void pairs() {
    auto pairs = std::make_unique<Pair[]>(4);
    for (int i = 0; i < 4; i++) {
        guard first(pairs[i].first);
        guard second(pairs[i].second);
    }
}

APART void lines() {
    auto lines = std::make_unique<Lines>();
    guard a(lines->a), b(lines->b), c(lines->c);
}

APART void at_once() {
    auto lines = std::make_unique<Lines>();
    std::scoped_lock all(lines->a, lines->b, lines->c);
}

APART void shards() {
    auto shards = std::make_unique<Shards>();
    guard all(shards->all);
    for (int i = 0; i < 5; i++)
        guard one(shards->shard[i]);
}

APART void members() {
    auto pair = std::make_unique<Pair>();
    for (auto *lock : {&pair->first, &pair->second})
        guard one(*lock);
    guard first(pair->first);
    guard second(pair->second);
}

int main(int argc, char **argv) {
    void (*cases[])() = {by_vector, by_deque, by_new, by_calloc, by_malloc, pairs, lines, at_once, shards, members,
                         by_size<7>, by_size<8>};
    cases[argc > 1 ? atoi(argv[1]) : 0]();
}
