// Locks of virtual bases, in objects of classes that are larger than the one whose function runs.
#include <cstring>
#include <memory>
#include <mutex>
struct Shared {
    virtual ~Shared() {}
    std::mutex count_lock;
    int count = 0;
};
struct Named {
    virtual ~Named() {}
    std::mutex name_lock;
};
struct Part : virtual Shared {
    long at = 0;
    __attribute__((noinline)) void retain() { std::lock_guard<std::mutex> held(count_lock); }
};
struct Whole : Part {
    std::mutex own;
    __attribute__((noinline)) void use() { std::lock_guard<std::mutex> held(own); }
};
struct Both : Part, virtual Named {
    __attribute__((noinline)) void rename() { std::lock_guard<std::mutex> held(name_lock); }
};
static Whole everywhere;
int main(int argc, char **argv) {
    if (argc > 1 && !strcmp(argv[1], "both")) { // nothing says which of the two comes first
        std::unique_ptr<Both> both(new Both);
        both->retain();
        both->rename();
        return 0;
    }
    Whole *whole = new Whole;
    whole->retain();
    whole->use();
    delete whole;
    std::make_shared<Whole>()->retain();
    std::unique_ptr<Part>(new Part)->retain();
    everywhere.retain();
    everywhere.use();
    Whole here;
    here.retain();
    here.use();
}
