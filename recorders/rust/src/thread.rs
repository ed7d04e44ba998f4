//! `std::thread`, with joins recorded: who waits for the end of a thread takes what that thread is itself.
use crate::recording::{joined, Life, Lives, Running};
use std::fmt;
use std::io;
use std::mem::MaybeUninit;
use std::os::unix::thread::{JoinHandleExt, RawPthread};
use std::panic::Location;
use std::sync::Arc;

pub use std::thread::*;

/// A thread's function, with what the thread is itself while that runs.
fn lives<F: FnOnce() -> T, T>(life: &Arc<Life>, f: F) -> impl FnOnce() -> T + use<F, T> {
    let life = life.clone();
    move || {
        let _running = Running::begin(life);
        f()
    }
}

// ---- Threads that may go on when the one that started them ends.

/// `std::thread::JoinHandle`, recorded.
pub struct JoinHandle<T> {
    real: std::thread::JoinHandle<T>,
    life: Arc<Life>,
}

/// `std::thread::spawn`, recorded.
#[track_caller]
pub fn spawn<F, T>(f: F) -> JoinHandle<T>
where
    F: FnOnce() -> T + Send + 'static,
    T: Send + 'static,
{
    let life = Arc::new(Life::new(Location::caller()));
    JoinHandle { real: std::thread::spawn(lives(&life, f)), life }
}

impl<T> JoinHandle<T> {
    #[must_use]
    pub fn thread(&self) -> &Thread {
        self.real.thread()
    }

    #[track_caller]
    pub fn join(self) -> Result<T> {
        joined(&self.life, Location::caller());
        self.real.join()
    }

    pub fn is_finished(&self) -> bool {
        self.real.is_finished()
    }
}

impl<T> fmt::Debug for JoinHandle<T> {
    fn fmt(&self, formatter: &mut fmt::Formatter<'_>) -> fmt::Result {
        self.real.fmt(formatter)
    }
}

impl<T> JoinHandleExt for JoinHandle<T> {
    fn as_pthread_t(&self) -> RawPthread {
        self.real.as_pthread_t()
    }

    fn into_pthread_t(self) -> RawPthread {
        self.real.into_pthread_t()
    }
}

/// `std::thread::Builder`, recorded.
#[must_use = "must eventually spawn the thread"]
pub struct Builder(std::thread::Builder);

impl fmt::Debug for Builder {
    fn fmt(&self, formatter: &mut fmt::Formatter<'_>) -> fmt::Result {
        self.0.fmt(formatter)
    }
}

impl Builder {
    pub fn new() -> Builder {
        Builder(std::thread::Builder::new())
    }

    pub fn name(self, name: String) -> Builder {
        Builder(self.0.name(name))
    }

    pub fn stack_size(self, size: usize) -> Builder {
        Builder(self.0.stack_size(size))
    }

    #[track_caller]
    pub fn spawn<F, T>(self, f: F) -> io::Result<JoinHandle<T>>
    where
        F: FnOnce() -> T + Send + 'static,
        T: Send + 'static,
    {
        let life = Arc::new(Life::new(Location::caller()));
        Ok(JoinHandle { real: self.0.spawn(lives(&life, f))?, life })
    }

    /// # Safety
    /// As with `std::thread::Builder::spawn_unchecked`: the thread is joined before what it borrows ends.
    #[track_caller]
    pub unsafe fn spawn_unchecked<F, T>(self, f: F) -> io::Result<JoinHandle<T>>
    where
        F: FnOnce() -> T + Send,
        T: Send,
    {
        let life = Arc::new(Life::new(Location::caller()));
        Ok(JoinHandle { real: unsafe { self.0.spawn_unchecked(lives(&life, f))? }, life })
    }

    #[track_caller]
    pub fn spawn_scoped<'scope, 'env, F, T>(self, scope: &'scope Scope<'scope, 'env>, f: F) -> io::Result<ScopedJoinHandle<'scope, T>>
    where
        F: FnOnce() -> T + Send + 'scope,
        T: Send + 'scope,
    {
        let life = Arc::new(Life::new(Location::caller()));
        let real = self.0.spawn_scoped(scope.real(), lives(&life, f))?;
        Ok(ScopedJoinHandle { real, unjoined: Unjoined::new(life, scope) })
    }
}

// ---- Threads that a scope waits for.

/// `std::thread::Scope`, recorded. It lies beside std's own, which outlives `'scope`, as `waited` does.
pub struct Scope<'scope, 'env: 'scope> {
    real: *const std::thread::Scope<'scope, 'env>,
    waited: *const Arc<Lives>,
}

// Both can be used by any thread in `'scope`.
unsafe impl Send for Scope<'_, '_> {}
unsafe impl Sync for Scope<'_, '_> {}

/// `std::thread::scope`, recorded. Its end joins all threads that weren't joined.
#[track_caller]
pub fn scope<'env, F, T>(f: F) -> T
where
    F: for<'scope> FnOnce(&'scope Scope<'scope, 'env>) -> T,
{
    let waited = Arc::new(Lives::new());
    let mut room = MaybeUninit::<Scope<'env, 'env>>::uninit();
    let (own, place) = (room.as_mut_ptr().cast(), Location::caller());
    std::thread::scope(|real| {
        let _ends = Ends { waited: &waited, place };
        f(unsafe { Scope::begin(own, real, &waited) })
    })
}

impl<'scope, 'env> Scope<'scope, 'env> {
    /// # Safety
    /// `own` is room for a scope that outlives `'scope`, and so does `waited`.
    unsafe fn begin(own: *mut (), real: &'scope std::thread::Scope<'scope, 'env>, waited: *const Arc<Lives>) -> &'scope Self {
        let own: *mut Self = own.cast();
        unsafe {
            own.write(Scope { real, waited });
            &*own
        }
    }

    fn real(&'scope self) -> &'scope std::thread::Scope<'scope, 'env> {
        unsafe { &*self.real }
    }

    #[track_caller]
    pub fn spawn<F, T>(&'scope self, f: F) -> ScopedJoinHandle<'scope, T>
    where
        F: FnOnce() -> T + Send + 'scope,
        T: Send + 'scope,
    {
        let life = Arc::new(Life::new(Location::caller()));
        let real = self.real().spawn(lives(&life, f));
        ScopedJoinHandle { real, unjoined: Unjoined::new(life, self) }
    }
}

impl fmt::Debug for Scope<'_, '_> {
    fn fmt(&self, formatter: &mut fmt::Formatter<'_>) -> fmt::Result {
        unsafe { &*self.real }.fmt(formatter)
    }
}

/// The end of a scope, also by a panic.
struct Ends<'a> {
    waited: &'a Lives,
    place: &'static Location<'static>,
}

impl Drop for Ends<'_> {
    fn drop(&mut self) {
        self.waited.all_joined(self.place);
    }
}

/// A thread of a scope. The end of the scope waits for it, unless it is joined.
struct Unjoined {
    life: Option<Arc<Life>>,
    waited: Arc<Lives>,
}

impl Unjoined {
    fn new(life: Arc<Life>, scope: &Scope<'_, '_>) -> Unjoined {
        Unjoined { life: Some(life), waited: unsafe { &*scope.waited }.clone() }
    }
}

impl Drop for Unjoined {
    fn drop(&mut self) {
        if let Some(life) = self.life.take() {
            self.waited.add(life);
        }
    }
}

/// `std::thread::ScopedJoinHandle`, recorded.
pub struct ScopedJoinHandle<'scope, T> {
    real: std::thread::ScopedJoinHandle<'scope, T>,
    unjoined: Unjoined,
}

impl<T> ScopedJoinHandle<'_, T> {
    #[must_use]
    pub fn thread(&self) -> &Thread {
        self.real.thread()
    }

    #[track_caller]
    pub fn join(mut self) -> Result<T> {
        if let Some(life) = self.unjoined.life.take() {
            joined(&life, Location::caller());
        }
        self.real.join()
    }

    pub fn is_finished(&self) -> bool {
        self.real.is_finished()
    }
}

impl<T> fmt::Debug for ScopedJoinHandle<'_, T> {
    fn fmt(&self, formatter: &mut fmt::Formatter<'_>) -> fmt::Result {
        self.real.fmt(formatter)
    }
}
