// wrong: double table SIGUSR1. The handler is a function of a class in a namespace: lists and reports name it in the same way.
#include <csignal>
#include <mutex>
static std::mutex table;
namespace server {
struct Config {
    static void on_usr1(int) { std::lock_guard<std::mutex> guard(table); }
};
}
int main() { std::signal(SIGUSR1, server::Config::on_usr1); { std::lock_guard<std::mutex> guard(table); } std::raise(SIGUSR1); }
