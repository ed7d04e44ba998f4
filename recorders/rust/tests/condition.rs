// Every wait of a condition: a release and an acquisition, with the conditions themselves run while the lock is held.
use lockdep_record::{Condvar, Mutex};
use std::time::Duration;

static OUTER: Mutex<i32> = Mutex::new(0);
static INNER: Mutex<i32> = Mutex::new(0);
static IN_A_CONDITION: Mutex<i32> = Mutex::new(0);
static CHANGED: Condvar = Condvar::new();

#[allow(deprecated)]
fn main() {
    let brief = Duration::from_millis(1);
    let guard = INNER.lock().unwrap();
    let outer = OUTER.lock().unwrap();
    let (guard, result) = CHANGED.wait_timeout(guard, brief).unwrap();
    assert!(result.timed_out());
    drop(outer);
    let (guard, result) = CHANGED.wait_timeout_while(guard, brief, |_| *IN_A_CONDITION.lock().unwrap() == 0).unwrap();
    assert!(result.timed_out());
    let (guard, result) = CHANGED.wait_timeout_while(guard, brief, |_| false).unwrap();
    assert!(!result.timed_out());
    let (guard, is_notified) = CHANGED.wait_timeout_ms(guard, 1).unwrap();
    assert!(!is_notified);
    drop(CHANGED.wait_while(guard, |_| false).unwrap());
    std::thread::scope(|scope| {
        let mut guard = INNER.lock().unwrap();
        scope.spawn(|| {
            *INNER.lock().unwrap() = 1;
            CHANGED.notify_all();
        });
        while *guard == 0 {
            guard = CHANGED.wait(guard).unwrap();
        }
    });
    CHANGED.notify_one();
}
