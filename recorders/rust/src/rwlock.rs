//! `RwLock` and its guards. A reader is `r`: std leaves open whether readers wait behind a waiting writer, and on Linux they do.
use crate::recording::{begin_pending, failed_try, gave, took, tries_a_little, Mark, Mode, Token};
use std::any::type_name;
use std::fmt;
use std::mem::ManuallyDrop;
use std::ops::{Deref, DerefMut};
use std::panic::Location;
use std::sync::{LockResult, PoisonError, TryLockError, TryLockResult};

/// `std::sync::RwLock`, recorded.
pub struct RwLock<T: ?Sized> {
    mark: Mark,
    real: std::sync::RwLock<T>,
}

/// `std::sync::RwLockReadGuard`, recorded.
#[must_use = "if unused the RwLock will immediately unlock"]
#[clippy::has_significant_drop]
pub struct RwLockReadGuard<'a, T: ?Sized + 'a> {
    real: std::sync::RwLockReadGuard<'a, T>,
    token: Token,
}

/// `std::sync::RwLockWriteGuard`, recorded.
#[must_use = "if unused the RwLock will immediately unlock"]
#[clippy::has_significant_drop]
pub struct RwLockWriteGuard<'a, T: ?Sized + 'a> {
    real: std::sync::RwLockWriteGuard<'a, T>,
    mark: &'a Mark,
    token: Token,
}

impl<T> RwLock<T> {
    #[inline]
    #[track_caller]
    pub const fn new(value: T) -> RwLock<T> {
        RwLock { mark: Mark::new(Location::caller(), type_name::<T>), real: std::sync::RwLock::new(value) }
    }

    pub fn into_inner(self) -> LockResult<T> {
        self.real.into_inner()
    }
}

/// A guard that was tried for, if it was available.
#[inline]
fn tried<G>(result: TryLockResult<G>) -> Option<LockResult<G>> {
    match result {
        Ok(guard) => Some(Ok(guard)),
        Err(TryLockError::Poisoned(poison)) => Some(Err(poison)),
        Err(TryLockError::WouldBlock) => None,
    }
}

/// A recorded guard made of the real one, poisoned or not.
#[inline]
fn guarded<G, R>(result: LockResult<G>, make: impl FnOnce(G) -> R) -> LockResult<R> {
    match result {
        Ok(real) => Ok(make(real)),
        Err(poison) => Err(PoisonError::new(make(poison.into_inner()))),
    }
}

impl<T: ?Sized> RwLock<T> {
    #[track_caller]
    pub fn read(&self) -> LockResult<RwLockReadGuard<'_, T>> {
        let place = Location::caller();
        let (result, token) = self.acquired(Mode::Read, place, || self.real.try_read(), || self.real.read());
        guarded(result, |real| RwLockReadGuard { real, token })
    }

    #[track_caller]
    pub fn try_read(&self) -> TryLockResult<RwLockReadGuard<'_, T>> {
        let place = Location::caller();
        let result = self.noted(tried(self.real.try_read()))?;
        let token = took(&self.mark, Mode::TryRead, place);
        Ok(guarded(result, |real| RwLockReadGuard { real, token })?)
    }

    #[track_caller]
    pub fn write(&self) -> LockResult<RwLockWriteGuard<'_, T>> {
        let place = Location::caller();
        let (result, token) = self.acquired(Mode::Write, place, || self.real.try_write(), || self.real.write());
        guarded(result, |real| RwLockWriteGuard { real, mark: &self.mark, token })
    }

    #[track_caller]
    pub fn try_write(&self) -> TryLockResult<RwLockWriteGuard<'_, T>> {
        let place = Location::caller();
        let result = self.noted(tried(self.real.try_write()))?;
        let token = took(&self.mark, Mode::TryWrite, place);
        Ok(guarded(result, |real| RwLockWriteGuard { real, mark: &self.mark, token })?)
    }

    /// Takes the lock: at once, after a little while, or by waiting, which is written first.
    #[inline]
    fn acquired<G>(
        &self,
        mode: Mode,
        place: &'static Location<'static>,
        tries: impl Fn() -> TryLockResult<G>,
        waits: impl FnOnce() -> LockResult<G>,
    ) -> (LockResult<G>, Token) {
        if let Some(result) = tried(tries()).or_else(|| tries_a_little(|| tried(tries()))) {
            return (result, took(&self.mark, mode, place));
        }
        let pending = begin_pending(&self.mark, mode, place);
        let result = waits();
        (result, pending.granted())
    }

    /// The result of a try, which is noted if it failed.
    #[inline]
    fn noted<G, R>(&self, result: Option<LockResult<G>>) -> Result<LockResult<G>, TryLockError<R>> {
        result.ok_or_else(|| {
            failed_try(&self.mark);
            TryLockError::WouldBlock
        })
    }

    #[inline]
    pub fn is_poisoned(&self) -> bool {
        self.real.is_poisoned()
    }

    #[inline]
    pub fn clear_poison(&self) {
        self.real.clear_poison();
    }

    pub fn get_mut(&mut self) -> LockResult<&mut T> {
        self.real.get_mut()
    }
}

impl<T> From<T> for RwLock<T> {
    #[track_caller]
    fn from(value: T) -> RwLock<T> {
        RwLock { mark: Mark::of_default(Location::caller(), type_name::<T>), real: std::sync::RwLock::new(value) }
    }
}

impl<T: Default> Default for RwLock<T> {
    #[track_caller]
    fn default() -> RwLock<T> {
        RwLock { mark: Mark::of_default(Location::caller(), type_name::<T>), real: std::sync::RwLock::default() }
    }
}

impl<T: ?Sized + fmt::Debug> fmt::Debug for RwLock<T> {
    fn fmt(&self, formatter: &mut fmt::Formatter<'_>) -> fmt::Result {
        self.real.fmt(formatter)
    }
}

impl<'a, T: ?Sized> RwLockWriteGuard<'a, T> {
    /// The writer becomes a reader without waiting for anybody: a release, and a try that succeeds.
    #[track_caller]
    pub fn downgrade(s: Self) -> RwLockReadGuard<'a, T> {
        let place = Location::caller();
        let guard = ManuallyDrop::new(s);
        gave(guard.token);
        let real = std::sync::RwLockWriteGuard::downgrade(unsafe { std::ptr::read(&guard.real) });
        RwLockReadGuard { real, token: took(guard.mark, Mode::TryRead, place) }
    }
}

impl<T: ?Sized> Drop for RwLockReadGuard<'_, T> {
    #[inline]
    fn drop(&mut self) {
        gave(self.token);
    }
}

impl<T: ?Sized> Drop for RwLockWriteGuard<'_, T> {
    #[inline]
    fn drop(&mut self) {
        gave(self.token);
    }
}

impl<T: ?Sized> Deref for RwLockReadGuard<'_, T> {
    type Target = T;
    #[inline]
    fn deref(&self) -> &T {
        &self.real
    }
}

impl<T: ?Sized> Deref for RwLockWriteGuard<'_, T> {
    type Target = T;
    #[inline]
    fn deref(&self) -> &T {
        &self.real
    }
}

impl<T: ?Sized> DerefMut for RwLockWriteGuard<'_, T> {
    #[inline]
    fn deref_mut(&mut self) -> &mut T {
        &mut self.real
    }
}

impl<T: ?Sized + fmt::Debug> fmt::Debug for RwLockReadGuard<'_, T> {
    fn fmt(&self, formatter: &mut fmt::Formatter<'_>) -> fmt::Result {
        self.real.fmt(formatter)
    }
}

impl<T: ?Sized + fmt::Debug> fmt::Debug for RwLockWriteGuard<'_, T> {
    fn fmt(&self, formatter: &mut fmt::Formatter<'_>) -> fmt::Result {
        self.real.fmt(formatter)
    }
}

impl<T: ?Sized + fmt::Display> fmt::Display for RwLockReadGuard<'_, T> {
    fn fmt(&self, formatter: &mut fmt::Formatter<'_>) -> fmt::Result {
        self.real.fmt(formatter)
    }
}

impl<T: ?Sized + fmt::Display> fmt::Display for RwLockWriteGuard<'_, T> {
    fn fmt(&self, formatter: &mut fmt::Formatter<'_>) -> fmt::Result {
        self.real.fmt(formatter)
    }
}
