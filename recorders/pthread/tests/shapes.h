#pragma once
#include <memory>
#include <mutex>
class Hidden; // defined in shapes_other.cc alone
Hidden *make_hidden();
void use_hidden(Hidden *);
struct Pimpl {
    Pimpl();
    ~Pimpl();
    void work();
    struct Impl;
    std::unique_ptr<Impl> p;
};
namespace lib {
inline namespace v2 {
struct Inline {
    std::mutex mu;
    int n = 0;
    void work();
};
} // namespace v2
} // namespace lib
