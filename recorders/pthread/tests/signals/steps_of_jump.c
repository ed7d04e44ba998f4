/* A signal comes in at every instruction of a jump that puts back another mask than is in force. */
#include "common.h"
static void on_usr1(int number) { (void)number; }
static volatile sig_atomic_t steps;
static void on_step(int number) { (void)number, steps++; }
static sigjmp_buf out;
int main(void) {
    handle(SIGUSR1, on_usr1, 0);
    handle(SIGTRAP, on_step, 0);
    if (sigsetjmp(out, 1) == 0) {
        block(SIGUSR1);
        __asm__ volatile("pushfq\n\torq $0x100, (%%rsp)\n\tpopfq" : : : "memory", "cc");
        siglongjmp(out, 1);
    }
    __asm__ volatile("pushfq\n\tandq $~0x100, (%%rsp)\n\tpopfq" : : : "memory", "cc");
    return steps > 50 ? 0 : 1;
}
