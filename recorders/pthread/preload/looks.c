/* Looks at the first lock of each class, and at some further ones: the registers that a call keeps, and a piece of the stack, from this
   function's frame on. `names` finds there, by the program's debug information, which object has the lock, and so its type. Nothing is
   read but the thread's own stack, as far as it could be followed; that takes no system call. */
#include "own.h"

#ifdef __x86_64__

/* What the registers are at one instruction, with its address. */
static inline __attribute__((always_inline)) void take_registers(uint64_t *to) {
    __asm__ volatile("movq %%rbx, %c1(%0)\n\tmovq %%rbp, %c2(%0)\n\tmovq %%rsp, %c3(%0)\n\tmovq %%r12, %c4(%0)\n\t"
                     "movq %%r13, %c5(%0)\n\tmovq %%r14, %c6(%0)\n\tmovq %%r15, %c7(%0)\n\tleaq 0(%%rip), %%rax\n\tmovq %%rax, %c8(%0)"
                     :
                     : "r"(to), "i"(8 * RAW_RBX), "i"(8 * RAW_RBP), "i"(8 * RAW_RSP), "i"(8 * RAW_R12), "i"(8 * RAW_R13),
                       "i"(8 * RAW_R14), "i"(8 * RAW_R15), "i"(8 * RAW_RIP)
                     : "rax", "memory");
}

/* A call of the C library's memcpy would have to be found first, which takes a stack that may be small. */
static void copy_words(void *to, uintptr_t from, uint64_t bytes) {
    uint64_t words = bytes / 8;
    __asm__ volatile("rep movsq" : "+D"(to), "+S"(from), "+c"(words) : : "memory");
}

static uint64_t bytes_from(uintptr_t stack, struct call call) {
    uintptr_t to = followed_to(call, RAW_LOOK_PROGRAM), most = call.frame + 16 + RAW_LOOK_PROGRAM;
    if (stack > call.frame || to <= stack)
        return 0; /* the recorder is on another stack than its caller */
    uint64_t bytes = (to < most ? to : most) - stack;
    return (bytes < RAW_LOOK_STACK ? bytes : RAW_LOOK_STACK) & ~UINT64_C(7);
}

__attribute__((noinline)) static void fill(struct raw_look *look, struct call call) {
    take_registers(look->registers);
    look->bytes = (uint32_t)bytes_from(look->registers[RAW_RSP], call);
    copy_words(look->stack, look->registers[RAW_RSP], look->bytes);
}

#else

static void fill(struct raw_look *look, struct call call) { (void)look, (void)call; }

#endif

static inline __attribute__((always_inline)) void write_look(uint32_t number, uint32_t further, uintptr_t lock, const struct memory *memory,
                                                             struct call call) {
    struct raw_look *look = part_of(RAW_LOOKS, number);
    look->further = further;
    look->lock = lock;
    look->piece = memory->from;
    look->piece_bytes = memory->bytes;
    look->piece_place = memory->place;
    fill(look, call);
    STORE(&look->is_ready, 1);
}

/* Of two threads that look at once the first counts. */
void look_at(struct raw_class *class, uintptr_t lock, const struct memory *memory, struct call call) {
    uint32_t none = 0, number = take_part(RAW_LOOKS);
    if (SWAP(&class->look, &none, number ? number : RAW_NO_LOOK) && number)
        write_look(number, 0, lock, memory, call);
}

/* Half of the room is for the first locks of classes. */
void look_further(uint32_t class, uintptr_t lock, const struct memory *memory, struct call call) {
    const struct raw_region *region = &arena->regions[RAW_LOOKS];
    uint32_t number = LOAD(&region->used) < region->room / 2 ? take_part(RAW_LOOKS) : 0;
    if (number)
        write_look(number, class, lock, memory, call);
}
