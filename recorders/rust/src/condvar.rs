//! `Condvar`: a wait is a release of the mutex and an acquisition.
use crate::mutex::MutexGuard;
use crate::recording::{get_message, give_message};
use std::fmt;
use std::panic::Location;
use std::sync::atomic::{AtomicU32, Ordering};
use std::sync::{LockResult, PoisonError, WaitTimeoutResult};
use std::time::{Duration, Instant};

/// `std::sync::Condvar`, which takes the guards of this crate.
pub struct Condvar {
    real: std::sync::Condvar,
    /// The last message that who waits for it was given.
    message: AtomicU32,
}

type Waited<'a, T> = LockResult<(MutexGuard<'a, T>, WaitTimeoutResult)>;

impl Condvar {
    #[inline]
    pub const fn new() -> Condvar {
        Condvar { real: std::sync::Condvar::new(), message: AtomicU32::new(0) }
    }

    #[track_caller]
    pub fn wait<'a, T>(&self, guard: MutexGuard<'a, T>) -> LockResult<MutexGuard<'a, T>> {
        let place = Location::caller();
        let before = self.message.load(Ordering::Relaxed);
        let (real, mark) = guard.given_back();
        let waited = self.real.wait(real);
        self.woken(before, place);
        match waited {
            Ok(real) => Ok(MutexGuard::taken_again(real, mark, place)),
            Err(poison) => Err(PoisonError::new(MutexGuard::taken_again(poison.into_inner(), mark, place))),
        }
    }

    #[track_caller]
    pub fn wait_while<'a, T, F>(&self, guard: MutexGuard<'a, T>, mut condition: F) -> LockResult<MutexGuard<'a, T>>
    where
        F: FnMut(&mut T) -> bool,
    {
        let mut guard = guard;
        while condition(&mut *guard) {
            guard = self.wait(guard)?;
        }
        Ok(guard)
    }

    #[track_caller]
    #[deprecated(since = "1.6.0", note = "replaced by `std::sync::Condvar::wait_timeout`")]
    #[allow(deprecated)]
    pub fn wait_timeout_ms<'a, T>(&self, guard: MutexGuard<'a, T>, ms: u32) -> LockResult<(MutexGuard<'a, T>, bool)> {
        match self.wait_timeout(guard, Duration::from_millis(u64::from(ms))) {
            Ok((guard, result)) => Ok((guard, !result.timed_out())),
            Err(poison) => {
                let (guard, result) = poison.into_inner();
                Err(PoisonError::new((guard, !result.timed_out())))
            }
        }
    }

    #[track_caller]
    pub fn wait_timeout<'a, T>(&self, guard: MutexGuard<'a, T>, dur: Duration) -> Waited<'a, T> {
        let place = Location::caller();
        let before = self.message.load(Ordering::Relaxed);
        let (real, mark) = guard.given_back();
        let waited = self.real.wait_timeout(real, dur);
        if waited.as_ref().map_or_else(|poison| !poison.get_ref().1.timed_out(), |(_, result)| !result.timed_out()) {
            self.woken(before, place);
        }
        match waited {
            Ok((real, result)) => Ok((MutexGuard::taken_again(real, mark, place), result)),
            Err(poison) => {
                let (real, result) = poison.into_inner();
                Err(PoisonError::new((MutexGuard::taken_again(real, mark, place), result)))
            }
        }
    }

    #[track_caller]
    pub fn wait_timeout_while<'a, T, F>(&self, guard: MutexGuard<'a, T>, dur: Duration, mut condition: F) -> Waited<'a, T>
    where
        F: FnMut(&mut T) -> bool,
    {
        let start = Instant::now();
        let mut guard = guard;
        loop {
            if !condition(&mut *guard) {
                return Ok((guard, result_of(false)));
            }
            let Some(timeout) = dur.checked_sub(start.elapsed()) else { return Ok((guard, result_of(true))) };
            guard = self.wait_timeout(guard, timeout)?.0;
        }
    }

    #[inline]
    #[track_caller]
    pub fn notify_one(&self) {
        self.message.store(give_message(Location::caller()), Ordering::Relaxed);
        self.real.notify_one();
    }

    #[inline]
    #[track_caller]
    pub fn notify_all(&self) {
        self.message.store(give_message(Location::caller()), Ordering::Relaxed);
        self.real.notify_all();
    }

    /// The running thread goes on: what was given last since its wait began has woken it.
    fn woken(&self, before: u32, place: &'static Location<'static>) {
        let message = self.message.load(Ordering::Relaxed);
        if message != before {
            get_message(message, place);
        }
    }
}

/// The result of a wait that timed out or didn't. Only the library can make one, so a real `Condvar` is made to return it.
#[cold]
fn result_of(is_timed_out: bool) -> WaitTimeoutResult {
    let mutex = std::sync::Mutex::new(());
    let guard = mutex.lock().unwrap_or_else(PoisonError::into_inner);
    let waited = std::sync::Condvar::new().wait_timeout_while(guard, Duration::ZERO, |()| is_timed_out);
    let (_guard, result) = waited.unwrap_or_else(PoisonError::into_inner);
    result
}

impl fmt::Debug for Condvar {
    fn fmt(&self, formatter: &mut fmt::Formatter<'_>) -> fmt::Result {
        self.real.fmt(formatter)
    }
}

impl Default for Condvar {
    fn default() -> Condvar {
        Condvar::new()
    }
}
