/* Names and rules for locks that a program gives itself, for `lockdep run -- ./program`. Without the recorder each of these is a load of one
   pointer that is NULL and a branch; with LOCKDEP_OFF defined it is nothing. The arguments are evaluated only with the recorder. C99 and
   C++; nothing is to be linked. */
#ifndef LOCKDEP_H
#define LOCKDEP_H
#if defined(LOCKDEP_OFF) || !(defined(__GNUC__) || defined(__clang__))
#define LOCKDEP_CALL_(what, lock, number, text) ((void)sizeof(lock), (void)sizeof(number), (void)sizeof(text))
#else
#if defined(__clang__)
#define LOCKDEP_WEAK_ __attribute__((weak))
#else
#define LOCKDEP_WEAK_ __attribute__((weak, noplt)) /* else a program that isn't position-independent has NULL for good */
#endif
#ifdef __cplusplus
extern "C" {
#endif
/* Found in the recorder's library, or NULL. One function for all, so that a newer header works with an older recorder: what that doesn't
   know it counts and leaves out. */
void lockdep_annotate_v1(unsigned what, const volatile void *lock, unsigned long number, const char *text) LOCKDEP_WEAK_;
#ifdef __cplusplus
}
#endif
#define LOCKDEP_CALL_(what, lock, number, text) \
    (__builtin_expect(lockdep_annotate_v1 != 0, 0) ? lockdep_annotate_v1((what), (lock), (number), (text)) : (void)0)
#endif
enum { LOCKDEP_CLASS_ = 1, LOCKDEP_NEST_ = 2, LOCKDEP_ORDER_ = 3, LOCKDEP_IGNORE_ = 4, LOCKDEP_HELD_ = 5, LOCKDEP_NO_ORDER_ = 6, LOCKDEP_DESTROYED_ = 7 };
/* The class of one lock, for good. Locks of one name are one class in all programs: give it before the lock is first taken. */
#define LOCKDEP_CLASS(lock, name) LOCKDEP_CALL_(LOCKDEP_CLASS_, (lock), 0, (name))
/* The next acquisition of the lock by this thread is of this subclass, 0 to 7, as mutex_lock_nested of the kernel. */
#define LOCKDEP_NESTED(lock, subclass) LOCKDEP_CALL_(LOCKDEP_NEST_, (lock), (subclass), 0)
/* Locks of the lock's class are taken in ascending order of the number, if several are held; LOCKDEP_BY_ADDRESS is that of the address. */
#define LOCKDEP_ORDERED(lock, number) LOCKDEP_CALL_(LOCKDEP_ORDER_, (lock), (number), "")
#define LOCKDEP_BY_ADDRESS(lock) LOCKDEP_CALL_(LOCKDEP_ORDER_, (lock), (unsigned long)(lock), "address")
/* The lock isn't recorded; the reason stands in the summary. */
#define LOCKDEP_IGNORE(lock, reason) LOCKDEP_CALL_(LOCKDEP_IGNORE_, (lock), 0, (reason))
/* The thread holds it here; else that is a finding. */
#define LOCKDEP_ASSERT_HELD(lock) LOCKDEP_CALL_(LOCKDEP_HELD_, (lock), 0, __FILE__)
/* What lay here is no lock any more: for allocators of one's own and for placement new. */
#define LOCKDEP_DESTROYED(address, bytes) LOCKDEP_CALL_(LOCKDEP_DESTROYED_, (address), (bytes), 0)
#endif
