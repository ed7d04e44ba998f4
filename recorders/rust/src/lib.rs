//! The locks of `std::sync`, with the same API, and `thread`, with that of `std::thread`. Built with `--cfg lockdep`, they record how the
//! program takes locks and joins threads, for `lockdep run --recorder rust`; without it this crate *is* `std::sync`, and its `thread`
//! `std::thread`. README.md says how to use it.
#[cfg(not(lockdep))]
pub use std::{sync::*, thread};

#[cfg(all(lockdep, unix))]
mod condvar;
#[cfg(all(lockdep, unix))]
mod mutex;
#[cfg(all(lockdep, unix))]
mod once;
#[cfg(all(lockdep, unix))]
mod recording;
#[cfg(all(lockdep, unix))]
mod rwlock;
#[cfg(all(lockdep, unix))]
pub mod thread;

#[cfg(all(lockdep, unix))]
#[allow(deprecated)]
pub use {
    condvar::Condvar,
    mutex::{Mutex, MutexGuard},
    once::{LazyLock, Once, OnceLock, ONCE_INIT},
    rwlock::{RwLock, RwLockReadGuard, RwLockWriteGuard},
    std::sync::*,
};

#[cfg(all(lockdep, not(unix)))]
compile_error!("lockdep_record records on Unix alone: build without `--cfg lockdep`");
