//! `Once`, `OnceLock` and `LazyLock`: what may have to wait for an initialiser is an acquisition, held until the call returns. One that
//! no longer waits for anybody is recorded only if other locks are held, since otherwise it gives no order.
use crate::recording::{gave, holds_something, took_unordered, Mark, Token};
use std::fmt;
use std::ops::{Deref, DerefMut};
use std::panic::Location;
use std::sync::OnceState;

/// The time during which an initialiser runs or is waited for.
struct Turn(Token);

impl Drop for Turn {
    fn drop(&mut self) {
        gave(self.0);
    }
}

/// Does what may run the initialiser, wait for another thread that runs it, or neither.
#[inline]
fn in_turn<R>(mark: &Mark, place: &'static Location<'static>, is_complete: bool, work: impl FnOnce() -> R) -> R {
    if is_complete && !holds_something() {
        return work();
    }
    let _turn = Turn(took_unordered(mark, place));
    work()
}

/// The type of what has none.
fn no_type() -> &'static str {
    ""
}

/// `std::sync::Once`, recorded.
pub struct Once {
    mark: Mark,
    real: std::sync::Once,
}

/// `std::sync::ONCE_INIT`.
#[deprecated(since = "1.38.0", note = "the `Once::new()` function is now preferred")]
pub const ONCE_INIT: Once = Once::new();

impl Once {
    #[inline]
    #[must_use]
    #[track_caller]
    pub const fn new() -> Once {
        Once { mark: Mark::new(Location::caller(), no_type), real: std::sync::Once::new() }
    }

    #[inline]
    #[track_caller]
    pub fn call_once<F: FnOnce()>(&self, f: F) {
        in_turn(&self.mark, Location::caller(), self.real.is_completed(), || self.real.call_once(f));
    }

    #[inline]
    #[track_caller]
    pub fn call_once_force<F: FnOnce(&OnceState)>(&self, f: F) {
        in_turn(&self.mark, Location::caller(), self.real.is_completed(), || self.real.call_once_force(f));
    }

    #[inline]
    pub fn is_completed(&self) -> bool {
        self.real.is_completed()
    }

    pub fn wait(&self) {
        self.real.wait();
    }

    pub fn wait_force(&self) {
        self.real.wait_force();
    }
}

impl fmt::Debug for Once {
    fn fmt(&self, formatter: &mut fmt::Formatter<'_>) -> fmt::Result {
        self.real.fmt(formatter)
    }
}

/// `std::sync::OnceLock`, recorded.
pub struct OnceLock<T> {
    mark: Mark,
    real: std::sync::OnceLock<T>,
}

impl<T> OnceLock<T> {
    #[inline]
    #[must_use]
    #[track_caller]
    pub const fn new() -> OnceLock<T> {
        OnceLock { mark: Mark::new(Location::caller(), std::any::type_name::<T>), real: std::sync::OnceLock::new() }
    }

    #[track_caller]
    const fn of(real: std::sync::OnceLock<T>) -> OnceLock<T> {
        OnceLock { mark: Mark::of_default(Location::caller(), std::any::type_name::<T>), real }
    }

    #[inline]
    pub fn get(&self) -> Option<&T> {
        self.real.get()
    }

    #[inline]
    pub fn get_mut(&mut self) -> Option<&mut T> {
        self.real.get_mut()
    }

    #[inline]
    pub fn wait(&self) -> &T {
        self.real.wait()
    }

    #[inline]
    #[track_caller]
    pub fn set(&self, value: T) -> Result<(), T> {
        in_turn(&self.mark, Location::caller(), self.real.get().is_some(), || self.real.set(value))
    }

    #[inline]
    #[track_caller]
    pub fn get_or_init<F: FnOnce() -> T>(&self, f: F) -> &T {
        in_turn(&self.mark, Location::caller(), self.real.get().is_some(), || self.real.get_or_init(f))
    }

    #[inline]
    pub fn into_inner(self) -> Option<T> {
        self.real.into_inner()
    }

    #[inline]
    pub fn take(&mut self) -> Option<T> {
        self.real.take()
    }
}

impl<T> Default for OnceLock<T> {
    #[inline]
    #[track_caller]
    fn default() -> OnceLock<T> {
        OnceLock::of(std::sync::OnceLock::new())
    }
}

impl<T: fmt::Debug> fmt::Debug for OnceLock<T> {
    fn fmt(&self, formatter: &mut fmt::Formatter<'_>) -> fmt::Result {
        self.real.fmt(formatter)
    }
}

impl<T: Clone> Clone for OnceLock<T> {
    #[inline]
    #[track_caller]
    fn clone(&self) -> OnceLock<T> {
        OnceLock::of(self.real.clone())
    }
}

impl<T> From<T> for OnceLock<T> {
    #[inline]
    #[track_caller]
    fn from(value: T) -> OnceLock<T> {
        OnceLock::of(std::sync::OnceLock::from(value))
    }
}

impl<T: PartialEq> PartialEq for OnceLock<T> {
    #[inline]
    fn eq(&self, other: &OnceLock<T>) -> bool {
        self.real == other.real
    }
}

impl<T: Eq> Eq for OnceLock<T> {}

/// `std::sync::LazyLock`, recorded.
pub struct LazyLock<T, F = fn() -> T> {
    mark: Mark,
    real: std::sync::LazyLock<T, F>,
}

impl<T, F: FnOnce() -> T> LazyLock<T, F> {
    #[inline]
    #[track_caller]
    pub const fn new(f: F) -> LazyLock<T, F> {
        LazyLock { mark: Mark::new(Location::caller(), std::any::type_name::<T>), real: std::sync::LazyLock::new(f) }
    }

    #[inline]
    #[track_caller]
    pub fn force_mut(this: &mut LazyLock<T, F>) -> &mut T {
        let is_complete = std::sync::LazyLock::get(&this.real).is_some();
        in_turn(&this.mark, Location::caller(), is_complete, || std::sync::LazyLock::force_mut(&mut this.real))
    }

    #[inline]
    #[track_caller]
    pub fn force(this: &LazyLock<T, F>) -> &T {
        let is_complete = std::sync::LazyLock::get(&this.real).is_some();
        in_turn(&this.mark, Location::caller(), is_complete, || std::sync::LazyLock::force(&this.real))
    }
}

impl<T, F> LazyLock<T, F> {
    pub fn get_mut(this: &mut LazyLock<T, F>) -> Option<&mut T> {
        std::sync::LazyLock::get_mut(&mut this.real)
    }

    pub fn get(this: &LazyLock<T, F>) -> Option<&T> {
        std::sync::LazyLock::get(&this.real)
    }
}

impl<T, F: FnOnce() -> T> Deref for LazyLock<T, F> {
    type Target = T;
    #[inline]
    #[track_caller]
    fn deref(&self) -> &T {
        LazyLock::force(self)
    }
}

impl<T, F: FnOnce() -> T> DerefMut for LazyLock<T, F> {
    #[inline]
    #[track_caller]
    fn deref_mut(&mut self) -> &mut T {
        LazyLock::force_mut(self)
    }
}

impl<T: Default> Default for LazyLock<T> {
    #[track_caller]
    fn default() -> LazyLock<T> {
        LazyLock { mark: Mark::of_default(Location::caller(), std::any::type_name::<T>), real: std::sync::LazyLock::default() }
    }
}

impl<T: fmt::Debug, F> fmt::Debug for LazyLock<T, F> {
    fn fmt(&self, formatter: &mut fmt::Formatter<'_>) -> fmt::Result {
        self.real.fmt(formatter)
    }
}
