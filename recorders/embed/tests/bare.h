/* What a program without any library needs on Linux on x86: a beginning, an end, and bytes that are written. */
#include <stddef.h>
#include <stdint.h>

#ifdef __cplusplus
extern "C" {
#endif

void begin(void);

#if defined __x86_64__
__asm__(".globl _start\n_start:\n\txor %ebp, %ebp\n\tand $-16, %rsp\n\tcall begin\n\thlt\n");

static long system_call(long number, long one, long two, long three) {
    long result;
    __asm__ volatile("syscall" : "=a"(result) : "a"(number), "D"(one), "S"(two), "d"(three) : "rcx", "r11", "memory");
    return result;
}

#define CALL_WRITE 1
#define CALL_EXIT 60
#elif defined __i386__
__asm__(".globl _start\n_start:\n\txor %ebp, %ebp\n\tand $-16, %esp\n\tcall begin\n\thlt\n");

static long system_call(long number, long one, long two, long three) {
    long result;
    __asm__ volatile("int $0x80" : "=a"(result) : "a"(number), "b"(one), "c"(two), "d"(three) : "memory");
    return result;
}

#define CALL_WRITE 4
#define CALL_EXIT 1
#else
#error only x86 is known here
#endif

#ifdef __cplusplus
}
#endif

static int write_out(void *cookie, const char *bytes, size_t size) {
    (void)cookie;
    return system_call(CALL_WRITE, 1, (long)bytes, (long)size) == (long)size ? 0 : -1;
}

static void end_program(void) { system_call(CALL_EXIT, 0, 0, 0); }

static void say(const char *text) {
    size_t length = 0;
    while (text[length]) {
        length++;
        __asm__ volatile("");
    }
    write_out(NULL, text, length);
}

static void say_number(uint32_t number) {
    char digits[12], *first = &digits[11];
    *first = 0;
    do
        *--first = (char)('0' + number % 10);
    while ((number /= 10) > 0);
    say(first);
}
