/* Types that the other file has only declarations of. */
#include "shapes.h"
class Hidden {
  public:
    int n = 0;
    std::mutex inner;
    void work() {
        std::lock_guard<std::mutex> g(inner);
        n++;
    }
};
Hidden *make_hidden() { return new Hidden; }
void use_hidden(Hidden *h) { h->work(); }
struct Pimpl::Impl {
    int k = 0;
    std::mutex guts;
};
Pimpl::Pimpl() : p(new Impl) {}
Pimpl::~Pimpl() {}
void Pimpl::work() {
    std::lock_guard<std::mutex> g(p->guts);
    p->k++;
}
void lib::Inline::work() {
    std::lock_guard<std::mutex> g(mu);
    n++;
}
