//! What locks call, and joins.
use super::super::lives::own_life;
use super::super::names::Mark;
use super::super::process;
use super::super::steps;
use super::{end_here, with_task, Mode, Place, Token, HERE, LEFT_OUT};

/// The running thread has taken a lock.
#[inline]
pub fn took(mark: &Mark, mode: Mode, place: Place) -> Token {
    with_task(|task| {
        task.count_operation();
        task.hold(mark, mode, place, false)
    })
    .unwrap_or(LEFT_OUT)
}

/// The same of what may run an initialiser, or wait for one that runs: which of these it does, and when, isn't known, so the order of steps hasn't got it.
pub fn took_unordered(mark: &Mark, place: Place) -> Token {
    with_task(|task| {
        task.count_operation();
        let key = mark.key(task.count > 0);
        task.hold_key(key, 0, Mode::Write, place, false)
    })
    .unwrap_or(LEFT_OUT)
}

/// The running thread is about to release a lock.
#[inline]
pub fn gave(token: Token) {
    if token != LEFT_OUT {
        let is_late = with_task(|task| {
            task.note(steps::RELEASES, token.lock, None, 0);
            if token.task != 0 {
                task.give(token);
            }
            task.is_late && task.count == 0
        });
        if is_late == Some(true) {
            end_here();
        }
    }
}

/// The running thread gives a message; 0 if nothing is noted.
pub fn give_message(place: Place) -> u32 {
    if steps::is_on() { with_task(|task| task.give_message(place)).unwrap_or(0) } else { 0 }
}

/// The running thread gets a message.
pub fn get_message(message: u32, place: Place) {
    if steps::is_on() && message != 0 {
        with_task(|task| task.note(steps::GETS, message, Some(place), 0));
    }
}

/// The running thread has waited for the end of another one.
pub fn note_join(member: u32, place: Place) {
    if steps::is_on() && member != 0 {
        with_task(|task| task.note(steps::JOINS, member, Some(place), 0));
    }
}

/// A try failed. One that is immediately repeated, with other locks held, is a way of waiting that no trace shows.
#[inline]
pub fn failed_try(mark: &Mark) {
    with_task(|task| {
        if task.count > 0 && std::ptr::eq(task.failed, mark) {
            task.lose(process::RETRIED_TRIES);
        }
        task.failed = mark;
    });
}

/// A lock that the running thread is about to wait for. It is written before the thread waits if others are held, or if it is new.
pub struct Pending(Token);

#[cold]
pub fn begin_pending(mark: &Mark, mode: Mode, place: Place) -> Pending {
    Pending(
        with_task(|task| {
            task.count_operation();
            task.hold_by_waiting(mark, mode, place)
        })
        .unwrap_or(LEFT_OUT),
    )
}

impl Pending {
    /// The thread got what it waited for.
    pub fn granted(self) -> Token {
        let token = self.0;
        std::mem::forget(self);
        if token != LEFT_OUT {
            with_task(|task| task.end_waiting());
        }
        token
    }
}

impl Drop for Pending {
    /// The thread didn't get what it waited for, for example because the call panicked.
    fn drop(&mut self) {
        if self.0 != LEFT_OUT {
            with_task(|task| {
                task.waits = false;
                task.withdraw(self.0);
            });
        }
    }
}

/// The running thread joins another one: it takes what that is, and gives it back at once. That isn't counted as an operation.
pub fn joins(mark: &Mark, mode: Mode, place: Place) {
    with_task(|task| {
        let token = task.hold(mark, mode, place, false);
        task.give_back_own(token);
    });
}

/// The running thread is about to wait for the end of another one.
#[cold]
pub fn begin_join(mark: &Mark, place: Place) -> Pending {
    Pending(with_task(|task| task.hold_by_waiting(mark, Mode::Write, place)).unwrap_or(LEFT_OUT))
}

/// That thread has ended.
pub fn has_joined(pending: Pending) {
    let token = pending.granted();
    if token != LEFT_OUT {
        with_task(|task| task.give_back_own(token));
    }
}

/// Whether the running thread holds something.
#[inline]
pub fn holds_something() -> bool {
    unsafe { HERE.get().as_ref() }.is_some_and(|task| task.count > 0)
}

/// Whether it matters that the running thread joins another one: it holds something, or may be joined itself.
pub fn may_join() -> bool {
    holds_something() || !own_life().is_null() || unsafe { HERE.get().as_ref() }.is_some_and(|task| task.life != 0)
}
