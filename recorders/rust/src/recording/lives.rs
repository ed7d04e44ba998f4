//! Threads that are joined. To who joins it, a thread is a lock that it has from its start to its end, and that is taken and given back
//! at once. What of this can matter is found out when the traces are made (tool/lockdep/finish/joins.py).
use super::names::Mark;
use super::task::{begin_join, end_with_thread, give_message, has_joined, joins, may_join, note_join, Mode, Pending};
use super::{steps, tries_a_little};
use std::cell::Cell;
use std::panic::Location;
use std::sync::atomic::{AtomicBool, AtomicU32, Ordering};
use std::sync::{Arc, Condvar, Mutex, MutexGuard, PoisonError};

/// How far a thread is: its function runs or has returned, or the destructors of its thread-local values have run too. A join waits for
/// the last, and the end of a scope for the second.
#[derive(Clone, Copy, PartialEq, PartialOrd)]
enum Stage {
    Runs,
    Returned,
    Ended,
}

/// A thread that may be joined. It has begun if it is recorded: if it has taken a lock, or joined another one.
pub struct Life {
    mark: Mark,
    process: u32,
    has_begun: AtomicBool,
    /// The message that it is started by, and which one it is in the order of steps, once it has begun.
    message: u32,
    member: AtomicU32,
    stage: Mutex<Stage>,
    change: Condvar,
}

thread_local! {
    /// What the running thread is itself, to its end.
    static OWN: Cell<*const Life> = const { Cell::new(std::ptr::null()) };
}

/// What the running thread is itself, or null.
pub fn own_life() -> *const Life {
    OWN.get()
}

impl Life {
    pub fn new(place: &'static Location<'static>) -> Life {
        Life {
            mark: Mark::of_thread(place),
            process: std::process::id(),
            has_begun: AtomicBool::new(false),
            message: give_message(place),
            member: AtomicU32::new(0),
            stage: Mutex::new(Stage::Runs),
            change: Condvar::new(),
        }
    }

    /// The thread takes its first lock. Its number as a lock, or 0 if there is no memory for it.
    pub fn begins(&self, member: u32) -> u32 {
        self.member.store(member, Ordering::Relaxed);
        self.has_begun.store(true, Ordering::Release);
        self.mark.key(true)
    }

    pub fn message(&self) -> u32 {
        self.message
    }

    /// A number that all threads have that are started in one place.
    pub fn class(&self) -> u64 {
        self.mark.class()
    }

    fn locked(&self) -> MutexGuard<'_, Stage> {
        self.stage.lock().unwrap_or_else(PoisonError::into_inner)
    }

    fn stage(&self) -> Stage {
        *self.locked()
    }

    /// The thread is at a stage. (In a process that it forked nobody waits for it, and who held this lock isn't there.)
    fn reach(&self, stage: Stage) {
        if self.process == std::process::id() {
            *self.locked() = stage;
            self.change.notify_all();
        }
    }

    fn wait_until(&self, stage: Stage) {
        let mut now = self.locked();
        while *now < stage {
            now = self.change.wait(now).unwrap_or_else(PoisonError::into_inner);
        }
    }

    /// Whether the thread is recorded, or may yet be.
    fn may_take(&self) -> bool {
        self.stage() < Stage::Ended || self.has_begun.load(Ordering::Acquire)
    }
}

/// The time in which a thread's function runs, in that thread.
pub struct Running(Arc<Life>);

impl Running {
    /// Comes before the program's first thread-local value, so that what the destructors of these do is still the thread's.
    pub fn begin(life: Arc<Life>) -> Running {
        end_with_thread();
        OWN.set(Arc::into_raw(life.clone()));
        Running(life)
    }
}

impl Drop for Running {
    fn drop(&mut self) {
        self.0.reach(Stage::Returned);
    }
}

/// The running thread is at its end.
pub fn end_own_life() {
    let own = OWN.replace(std::ptr::null());
    if !own.is_null() {
        let life = unsafe { Arc::from_raw(own) };
        life.reach(Stage::Ended);
    }
}

/// The running thread waits for the end of another one.
pub fn joined(life: &Life, place: &'static Location<'static>) {
    waits_until(life, Stage::Ended, place);
}

/// The running thread waits until another one is at a stage. One that is never recorded takes no lock, so it doesn't matter who waits for
/// it.
fn waits_until(life: &Life, stage: Stage, place: &'static Location<'static>) {
    if !may_join() && !steps::is_on() {
        return;
    }
    if !may_join() {
        life.wait_until(stage);
        return note_join(life.member.load(Ordering::Relaxed), place);
    }
    let is_there = || (life.stage() >= stage).then_some(());
    let mut pending: Option<Pending> = None;
    if tries_a_little(is_there).is_none() {
        pending = Some(begin_join(&life.mark, place));
        life.wait_until(stage);
    }
    if !life.may_take() {
        return;
    }
    match pending {
        Some(pending) => has_joined(pending),
        None => joins(&life.mark, Mode::Write, place),
    }
    note_join(life.member.load(Ordering::Relaxed), place);
}

/// Threads that the end of a scope waits for.
pub struct Lives(Mutex<Vec<Arc<Life>>>);

impl Lives {
    pub const fn new() -> Lives {
        Lives(Mutex::new(Vec::new()))
    }

    pub fn add(&self, life: Arc<Life>) {
        self.0.lock().unwrap_or_else(PoisonError::into_inner).push(life);
    }

    /// The running thread waits for all of them, and for those that these add. All orders are written before the first wait, since the
    /// threads are waited for together.
    pub fn all_joined(&self, place: &'static Location<'static>) {
        loop {
            let lives = std::mem::take(&mut *self.0.lock().unwrap_or_else(PoisonError::into_inner));
            if lives.is_empty() {
                return;
            }
            if may_join() {
                lives.iter().filter(|life| life.stage() == Stage::Runs).for_each(|life| joins(&life.mark, Mode::Write, place));
            }
            lives.iter().for_each(|life| waits_until(life, Stage::Returned, place));
        }
    }
}
