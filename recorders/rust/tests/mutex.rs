// Every call of a mutex, in one thread.
use lockdep_record::{Mutex, TryLockError};

static A: Mutex<i32> = Mutex::new(0);
static B: Mutex<i32> = Mutex::new(0);
static C: Mutex<i32> = Mutex::new(0);

fn main() {
    let a = A.lock().unwrap();
    *B.lock().unwrap() += *a;
    let b = B.try_lock().unwrap();
    assert!(matches!(B.try_lock(), Err(TryLockError::WouldBlock)));
    drop(a);
    let c = C.lock().unwrap();
    drop(c);
    drop(b);
    let own = Mutex::new(1);
    assert_eq!(*own.lock().unwrap(), 1);
    assert_eq!(own.into_inner().unwrap(), 1);
    let mut made = Mutex::from(2);
    *made.get_mut().unwrap() = 3;
    assert_eq!(made.lock().map(|guard| *guard).unwrap(), 3);
    assert_eq!(*Mutex::<i32>::default().lock().unwrap(), 0);
}
