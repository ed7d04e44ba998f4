//! `Mutex` and its guard.
use crate::recording::{begin_pending, failed_try, gave, took, tries_a_little, Mark, Mode, Token};
use std::any::type_name;
use std::fmt;
use std::mem::ManuallyDrop;
use std::ops::{Deref, DerefMut};
use std::panic::Location;
use std::sync::{LockResult, PoisonError, TryLockError, TryLockResult};

/// `std::sync::Mutex`, recorded.
pub struct Mutex<T: ?Sized> {
    mark: Mark,
    real: std::sync::Mutex<T>,
}

/// `std::sync::MutexGuard`, recorded.
#[must_use = "if unused the Mutex will immediately unlock"]
#[clippy::has_significant_drop]
pub struct MutexGuard<'a, T: ?Sized + 'a> {
    real: std::sync::MutexGuard<'a, T>,
    mark: &'a Mark,
    token: Token,
}

impl<T> Mutex<T> {
    #[inline]
    #[track_caller]
    pub const fn new(value: T) -> Mutex<T> {
        Mutex { mark: Mark::new(Location::caller(), type_name::<T>), real: std::sync::Mutex::new(value) }
    }

    pub fn into_inner(self) -> LockResult<T> {
        self.real.into_inner()
    }
}

impl<T: ?Sized> Mutex<T> {
    #[track_caller]
    pub fn lock(&self) -> LockResult<MutexGuard<'_, T>> {
        let place = Location::caller();
        match self.tried() {
            Some(result) => self.guarded(result, took(&self.mark, Mode::Write, place)),
            None => self.waits(place),
        }
    }

    #[cold]
    fn waits(&self, place: &'static Location<'static>) -> LockResult<MutexGuard<'_, T>> {
        if let Some(result) = tries_a_little(|| self.tried()) {
            return self.guarded(result, took(&self.mark, Mode::Write, place));
        }
        let pending = begin_pending(&self.mark, Mode::Write, place);
        let result = self.real.lock();
        self.guarded(result, pending.granted())
    }

    #[track_caller]
    pub fn try_lock(&self) -> TryLockResult<MutexGuard<'_, T>> {
        let place = Location::caller();
        match self.tried() {
            Some(result) => Ok(self.guarded(result, took(&self.mark, Mode::TryWrite, place))?),
            None => {
                failed_try(&self.mark);
                Err(TryLockError::WouldBlock)
            }
        }
    }

    /// The lock, if it is free.
    #[inline]
    fn tried(&self) -> Option<LockResult<std::sync::MutexGuard<'_, T>>> {
        match self.real.try_lock() {
            Ok(guard) => Some(Ok(guard)),
            Err(TryLockError::Poisoned(poison)) => Some(Err(poison)),
            Err(TryLockError::WouldBlock) => None,
        }
    }

    #[inline]
    fn guarded<'a>(&'a self, result: LockResult<std::sync::MutexGuard<'a, T>>, token: Token) -> LockResult<MutexGuard<'a, T>> {
        match result {
            Ok(real) => Ok(MutexGuard { real, mark: &self.mark, token }),
            Err(poison) => Err(PoisonError::new(MutexGuard { real: poison.into_inner(), mark: &self.mark, token })),
        }
    }

    #[inline]
    pub fn is_poisoned(&self) -> bool {
        self.real.is_poisoned()
    }

    #[inline]
    pub fn clear_poison(&self) {
        self.real.clear_poison();
    }

    pub fn get_mut(&mut self) -> LockResult<&mut T> {
        self.real.get_mut()
    }
}

impl<T> From<T> for Mutex<T> {
    #[track_caller]
    fn from(value: T) -> Mutex<T> {
        Mutex { mark: Mark::of_default(Location::caller(), type_name::<T>), real: std::sync::Mutex::new(value) }
    }
}

impl<T: Default> Default for Mutex<T> {
    #[track_caller]
    fn default() -> Mutex<T> {
        Mutex { mark: Mark::of_default(Location::caller(), type_name::<T>), real: std::sync::Mutex::default() }
    }
}

impl<T: ?Sized + fmt::Debug> fmt::Debug for Mutex<T> {
    fn fmt(&self, formatter: &mut fmt::Formatter<'_>) -> fmt::Result {
        self.real.fmt(formatter)
    }
}

impl<'a, T: ?Sized> MutexGuard<'a, T> {
    /// The real guard, for a wait that releases the lock and takes it again. The release is noted.
    #[inline]
    pub(crate) fn given_back(self) -> (std::sync::MutexGuard<'a, T>, &'a Mark) {
        let guard = ManuallyDrop::new(self);
        gave(guard.token);
        (unsafe { std::ptr::read(&guard.real) }, guard.mark)
    }

    /// A guard of a lock that was taken again after a wait.
    #[inline]
    pub(crate) fn taken_again(real: std::sync::MutexGuard<'a, T>, mark: &'a Mark, place: &'static Location<'static>) -> Self {
        MutexGuard { real, mark, token: took(mark, Mode::Write, place) }
    }
}

impl<T: ?Sized> Drop for MutexGuard<'_, T> {
    #[inline]
    fn drop(&mut self) {
        gave(self.token);
    }
}

impl<T: ?Sized> Deref for MutexGuard<'_, T> {
    type Target = T;
    #[inline]
    fn deref(&self) -> &T {
        &self.real
    }
}

impl<T: ?Sized> DerefMut for MutexGuard<'_, T> {
    #[inline]
    fn deref_mut(&mut self) -> &mut T {
        &mut self.real
    }
}

impl<T: ?Sized + fmt::Debug> fmt::Debug for MutexGuard<'_, T> {
    fn fmt(&self, formatter: &mut fmt::Formatter<'_>) -> fmt::Result {
        self.real.fmt(formatter)
    }
}

impl<T: ?Sized + fmt::Display> fmt::Display for MutexGuard<'_, T> {
    fn fmt(&self, formatter: &mut fmt::Formatter<'_>) -> fmt::Result {
        self.real.fmt(formatter)
    }
}
