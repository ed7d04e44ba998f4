//! Records what threads do with locks.
mod lives;
mod names;
mod process;
mod steps;
mod store;
mod task;

pub use lives::{joined, Life, Lives, Running};
pub use names::Mark;
pub use task::{begin_pending, failed_try, gave, get_message, give_message, holds_something, took, took_unordered, Mode, Token};

/// How often a lock is tried for before the thread waits for it, which has to be written: first at once, and then after other threads
/// had a turn.
const SPINS: u32 = 100;
const TURNS: u32 = 4;

/// Tries for a lock for a little while.
#[cold]
pub fn tries_a_little<R>(mut tries: impl FnMut() -> Option<R>) -> Option<R> {
    for turn in 0..SPINS + TURNS {
        if turn < SPINS {
            std::hint::spin_loop();
        } else {
            std::thread::yield_now();
        }
        if turn % 8 == 0 || turn >= SPINS {
            let got = tries();
            if got.is_some() {
                return got;
            }
        }
    }
    None
}
