/* Locks in shapes of all kinds, each taken once, in the order in which their names are printed. A `*` stands for any
 * text. */
#include "shapes.h"
#include <atomic>
#include <array>
#include <cstdio>
#include <cstdlib>
#include <deque>
#include <functional>
#include <list>
#include <map>
#include <optional>
#include <pthread.h>
#include <shared_mutex>
#include <string>
#include <thread>
#include <unordered_map>
#include <variant>
#include <vector>
typedef std::lock_guard<std::mutex> Guard;

/* The name that the next lock is to have. */
#define EXPECT(name) printf("%s\n", name)
#define NOINLINE __attribute__((noinline))
/* What a function does under a lock; and an object of a type that takes its lock. */
#define UNDER(lock, ...) \
    { \
        Guard g(lock); \
        __VA_ARGS__; \
    }
#define WORKS(name, object, ...) \
    EXPECT(name); \
    auto object = std::make_unique<__VA_ARGS__>(); \
    object->work()
struct Plain {
    int a = 0;
    std::mutex m;
    void work() UNDER(m, a++)
};
struct Two {
    std::mutex first, second;
    int a = 0;
    void one() UNDER(first, a++)
    void two() UNDER(second, a--)
};
struct Base {
    virtual ~Base() {}
    std::mutex base_mu;
    int n = 0;
    void locked() UNDER(base_mu, n++)
};
struct Derived : Base {
    std::string s;
};
struct VBase {
    virtual ~VBase() {}
    std::mutex vmu;
    int n = 0;
};
struct VDerived : virtual VBase {
    int k = 0;
    void work() {
        Guard g(vmu);
        n++;
        k++;
    }
};
struct Outer {
    int x = 0;
    struct Inner {
        long y = 0;
        std::mutex im;
    } in;
    std::mutex om;
    void a() UNDER(in.im, x++)
    void b() UNDER(om, x--)
};
class Mutex {
    pthread_mutex_t m_;

  public:
    Mutex() { pthread_mutex_init(&m_, nullptr); }
    ~Mutex() { pthread_mutex_destroy(&m_); }
    void Lock() { pthread_mutex_lock(&m_); }
    void Unlock() { pthread_mutex_unlock(&m_); }
};
class MutexLock {
    Mutex *m;

  public:
    explicit MutexLock(Mutex *p) : m(p) { m->Lock(); }
    ~MutexLock() { m->Unlock(); }
};
struct Wrapped {
    long k = 0;
    Mutex wmu;
    void work() {
        MutexLock l(&wmu);
        k++;
    }
};
template <class K, class V> struct Cache {
    std::map<K, V> m;
    std::mutex cmu;
    void put(K k, V v) UNDER(cmu, m[k] = v)
};
struct Shard {
    std::mutex smu;
    int n = 0;
};
struct Sharded {
    Shard shards[16];
    void work(int i) UNDER(shards[i].smu, shards[i].n++)
};
struct Striped {
    std::array<std::mutex, 8> stripes;
    int n = 0;
    void work(int i) UNDER(stripes[i], n++)
};
struct VecLocks {
    std::vector<std::mutex> locks;
    int n = 0;
    VecLocks() : locks(12) {}
    void work(int i) UNDER(locks[i], n++)
};
struct PtrLock {
    std::unique_ptr<std::mutex> up = std::make_unique<std::mutex>();
    int n = 0;
    void work() UNDER(*up, n++)
};
struct Anonymous {
    union {
        long pad;
    };
    struct {
        std::mutex deep;
        int q;
    } st;
    void work() UNDER(st.deep, st.q++)
};
union U {
    U() {}
    ~U() {}
    std::mutex um;
    long l[10];
};
struct HasUnion {
    int tag = 1;
    U u;
    HasUnion() { new (&u.um) std::mutex; }
    void work() UNDER(u.um, tag++)
};
struct HasOptional {
    std::optional<Plain> o;
    void work() { o->work(); }
};
struct Alt1 {
    std::mutex a1;
    int n = 0;
};
struct Alt2 {
    long z = 0;
    std::mutex a2;
    int n = 0;
};
struct Alt3 {
    std::mutex a3;
    long n = 0;
};
NOINLINE void lock_ref(std::mutex &m);
/* Both have a lock at one place in it. */
struct HasEither {
    std::variant<Alt1, Alt3> v;
    void work() {
        auto &x = std::get<Alt3>(v);
        lock_ref(x.a3);
        x.n++;
    }
};
struct HasVariant {
    std::variant<int, Alt1, Alt2> v;
    void work() {
        auto &x = std::get<Alt2>(v);
        Guard g(x.a2);
        x.n++;
    }
};
namespace {
struct Secret {
    std::mutex sm;
    int n = 0;
    void work() UNDER(sm, n++)
};
std::mutex anon_mu;
} // namespace
namespace app {
std::mutex ns_mu;
struct Registry {
    static Registry &get() {
        static Registry r;
        return r;
    }
    std::mutex rmu;
    int n = 0;
    void add() UNDER(rmu, n++)
};
struct Cls {
    static std::mutex s_mu;
};
std::mutex Cls::s_mu;
} // namespace app
static std::mutex file_mu;
static Shard table[4];
thread_local std::mutex tls_mu;
struct cnode {
    struct cnode *next;
    pthread_mutex_t lock;
    int n;
};
NOINLINE static struct cnode *cnode_new(void) {
    struct cnode *c = (struct cnode *)malloc(sizeof *c);
    c->next = 0;
    c->n = 0;
    pthread_mutex_init(&c->lock, 0);
    return c;
}
NOINLINE static void cnode_work(struct cnode *c) {
    pthread_mutex_lock(&c->lock);
    c->n++;
    pthread_mutex_unlock(&c->lock);
}
struct ccalloc {
    int n;
    pthread_mutex_t clock;
};
struct Rw {
    std::shared_mutex sh;
    int n = 0;
    int read() {
        std::shared_lock<std::shared_mutex> l(sh);
        return n;
    }
};
struct Rec {
    std::recursive_mutex rm;
    int n = 0;
    void a() {
        std::lock_guard<std::recursive_mutex> l(rm);
        if (n++ < 1)
            a();
    }
};
struct Uniq {
    std::mutex um;
    int n = 0;
    void work() {
        std::unique_lock<std::mutex> l(um);
        n++;
        l.unlock();
        l.lock();
    }
};
struct Scoped {
    std::mutex sc;
    int n = 0;
    void work() {
        std::scoped_lock l(sc);
        n++;
    }
};
struct Node {
    Node(int k) : k(k) {}
    int k;
    std::mutex nm;
    void work() UNDER(nm, k++)
};
NOINLINE void lock_ref(std::mutex &m) {
    Guard g(m);
    asm volatile("" ::: "memory");
}
struct ByRef {
    int n = 0;
    std::mutex rf;
    void work() {
        lock_ref(rf);
        n++;
    }
};
struct Tail {
    int n = 0;
    std::mutex tm;
    NOINLINE void lock() { tm.lock(); }
    NOINLINE void unlock() { tm.unlock(); }
};
NOINLINE void tail_user(Tail &t) {
    t.lock();
    t.n++;
    t.unlock();
}
/* A class that has only the name of a typedef. */
typedef struct {
    long n;
    pthread_mutex_t tlock;
} ctypedef;
NOINLINE static void ctypedef_work(ctypedef *c) {
    pthread_mutex_lock(&c->tlock);
    c->n++;
    pthread_mutex_unlock(&c->tlock);
}
/* What a variable has that isn't set yet is here a pointer to an object of another type, which a function has left on the stack. */
struct Early {
    std::mutex em;
    long n = 0;
};
struct Late {
    std::mutex lm;
    long n = 0;
};
static Early *early;
NOINLINE void leaves_pointers() {
    Early *volatile copies[64];
    for (int i = 0; i < 64; i++)
        copies[i] = early;
}
NOINLINE long uses_it() {
    Guard g(early->em);
    Late *late = nullptr;
    long n = early->n + (late ? late->n : 1);
    return n;
}
int main() {

    WORKS("shapes.cc:Plain::m", p, Plain);
    EXPECT("shapes.cc:Two::first");
    EXPECT("shapes.cc:Two::second");
    auto t = std::make_shared<Two>();
    t->one();
    t->two();
    EXPECT("shapes.cc:Base::base_mu");
    std::unique_ptr<Derived> d(new Derived);
    d->locked();
    EXPECT("shapes.cc:VBase::vmu");
    std::unique_ptr<VDerived> vd(new VDerived);
    vd->work();
    EXPECT("shapes.cc:Outer::Inner::im");
    EXPECT("shapes.cc:Outer::om");
    auto o = std::make_unique<Outer>();
    o->a();
    o->b();
    WORKS("shapes.cc:Wrapped::wmu", w, Wrapped);
    EXPECT("shapes.cc:Cache<*>::cmu");
    auto c = std::make_unique<Cache<std::string, std::vector<int>>>();
    c->put("a", {1});
    EXPECT("shapes.cc:Shard::smu");
    auto sh = std::make_unique<Sharded>();
    sh->work(5);
    EXPECT("shapes.cc:Striped::stripes[]");
    auto st = std::make_unique<Striped>();
    st->work(3);
    EXPECT("shapes.cc:VecLocks::locks[]");
    auto vl = std::make_unique<VecLocks>();
    vl->work(4);
    WORKS("shapes.cc:PtrLock::up", pl, PtrLock);
    WORKS("shapes.cc:Anonymous::st.deep", an, Anonymous);
    WORKS("shapes.cc:U::um", hu, HasUnion);
    EXPECT("shapes.cc:Plain::m");
    auto ho = std::make_unique<HasOptional>();
    ho->o.emplace();
    ho->work();
    EXPECT("shapes.cc:Alt2::a2");
    auto hv = std::make_unique<HasVariant>();
    hv->v.emplace<Alt2>();
    hv->work();
    EXPECT("shapes.cc:ctypedef::tlock");
    ctypedef_work((ctypedef *)calloc(1, sizeof(ctypedef)));
    EXPECT("shapes.cc:Alt3::a3");
    auto he = std::make_unique<HasEither>();
    he->v.emplace<Alt3>();
    he->work();
    EXPECT("shapes.cc:Early::em");
    early = (Early *)calloc(1, sizeof *early);
    leaves_pointers();
    uses_it();
    WORKS("shapes.cc:Secret::sm", se, Secret);
    EXPECT("shapes_other.cc:Hidden::inner");
    Hidden *h = make_hidden();
    use_hidden(h);
    EXPECT("shapes_other.cc:Pimpl::Impl::guts");
    Pimpl pi;
    pi.work();
    WORKS("lib::Inline::mu", in, lib::Inline);
    EXPECT("shapes.cc:anon_mu");
    { Guard g(anon_mu); }
    EXPECT("shapes.cc:app::ns_mu");
    { Guard g(app::ns_mu); }
    EXPECT("shapes.cc:app::Cls::s_mu");
    { Guard g(app::Cls::s_mu); }
    EXPECT("shapes.cc:file_mu");
    { Guard g(file_mu); }
    EXPECT("shapes.cc:Shard::smu");
    { Guard g(table[2].smu); }
    EXPECT("shapes.cc:tls_mu");
    { Guard g(tls_mu); }
    EXPECT("shapes.cc:app::Registry::rmu");
    app::Registry::get().add();
    EXPECT("shapes.cc:cnode::lock");
    cnode *cn = cnode_new();
    cnode_work(cn);
    EXPECT("shapes.cc:ccalloc::clock");
    ccalloc *cc = (ccalloc *)calloc(3, sizeof *cc);
    pthread_mutex_lock(&cc[1].clock);
    cc[1].n++;
    pthread_mutex_unlock(&cc[1].clock);
    EXPECT("shapes.cc:Rw::sh");
    auto rw = std::make_unique<Rw>();
    rw->read();
    EXPECT("shapes.cc:Rec::rm");
    auto re = std::make_unique<Rec>();
    re->a();
    WORKS("shapes.cc:Uniq::um", un, Uniq);
    WORKS("shapes.cc:Scoped::sc", sc, Scoped);
    EXPECT("shapes.cc:Node::nm");
    std::list<Node> ln;
    ln.emplace_back(1);
    ln.back().work();
    EXPECT("shapes.cc:Node::nm");
    std::map<int, Node> mn;
    mn.emplace(1, 1);
    mn.at(1).work();
    EXPECT("shapes.cc:Node::nm");
    std::unordered_map<int, Node> hn;
    hn.emplace(1, 1);
    hn.at(1).work();
    EXPECT("shapes.cc:Node::nm");
    std::deque<Node> dn;
    dn.emplace_back(1);
    dn.back().work();
    WORKS("shapes.cc:ByRef::rf", br, ByRef);
    EXPECT("shapes.cc:Tail::tm");
    auto ta = std::make_unique<Tail>();
    tail_user(*ta);
    EXPECT("main:loc");
    std::mutex loc;
    lock_ref(loc);
    // A thread that is joined has a class too, which is made when it was started.
    std::atomic<bool> is_started{false};
    auto await_start = [&] {
        while (!is_started)
            std::this_thread::yield();
    };
    auto join = [&](std::thread thread) {
        is_started = true;
        thread.join();
        is_started = false;
    };
    EXPECT("a thread");
    EXPECT("shapes.cc:Plain::m");
    Plain onstack;
    join(std::thread([&] {
        await_start();
        onstack.work();
    }));
    EXPECT("a thread");
    EXPECT("main:cap");
    std::mutex cap;
    int n = 0;
    auto f = [&] {
        await_start();
        Guard g(cap);
        n++;
    };
    join(std::thread(f));
    EXPECT("shapes.cc:Plain::m");
    auto sp = std::make_shared<Plain>();
    std::function<void()> fn = [sp] { Guard g(sp->m); };
    fn();
    EXPECT("shapes.cc:Shard::smu");
    std::vector<std::unique_ptr<Shard>> vs;
    volatile int shard_count = 3;
    for (int i = 0; i < shard_count; i++)
        vs.push_back(std::make_unique<Shard>());
    for (auto &x : vs) {
        Guard g(x->smu);
        x->n++;
    }
    EXPECT("shapes.cc:main::Local::lm");
    struct Local {
        std::mutex lm;
        int n = 0;
    };
    auto lo = std::make_unique<Local>();
    {
        Guard g(lo->lm);
        lo->n++;
    }
    return n - 1;
}
