/* Rules of return addresses: where a frame ends, and where its caller's rbp is. */
#ifndef LOCKDEP_RULES_H
#define LOCKDEP_RULES_H
#include "own.h"

enum base { BASE_NONE, BASE_SP, BASE_BP, BASE_AT_BP };
enum saved { SAVED_NOT, SAVED_IN_FRAME, SAVED_AT_BP };

struct rule {
    enum base base;   /* the frame's end is this register plus `offset`, or is what is in memory there */
    int32_t offset;
    enum saved saved; /* where the caller's rbp is: where it was, in the frame (from its end), or at rbp */
    int32_t saved_at;
};

struct rule rule_of(uintptr_t caller);
uintptr_t function_of(uintptr_t caller);

#endif
