// A thread that panics with a lock held, and what others then do with the lock.
use lockdep_record::{Mutex, PoisonError, TryLockError};

static A: Mutex<i32> = Mutex::new(0);
static HOOK: Mutex<i32> = Mutex::new(0);

fn main() {
    std::panic::set_hook(Box::new(|_| *HOOK.lock().unwrap() += 1));
    let panicked = std::thread::spawn(|| {
        let _guard = A.lock().unwrap();
        panic!("with the lock held");
    });
    assert!(panicked.join().is_err() && A.is_poisoned());
    let guard = A.lock().unwrap_or_else(PoisonError::into_inner);
    drop(guard);
    assert!(matches!(A.try_lock(), Err(TryLockError::Poisoned(_))));
    A.clear_poison();
    assert!(A.lock().is_ok() && *HOOK.lock().unwrap() == 1);
}
