// Every call of a read-write lock, in one thread.
use lockdep_record::{RwLock, RwLockWriteGuard};

static A: RwLock<i32> = RwLock::new(0);
static B: RwLock<i32> = RwLock::new(0);

fn main() {
    let a = A.read().unwrap();
    let b = B.write().unwrap();
    assert!(B.try_read().is_err() && A.try_write().is_err());
    drop(b);
    let b = B.try_write().unwrap();
    let b = RwLockWriteGuard::downgrade(b);
    assert_eq!(*b, *A.try_read().unwrap());
    drop(a);
    drop(b);
    let mut own = RwLock::from(1);
    *own.get_mut().unwrap() += 1;
    assert_eq!(*own.read().unwrap(), 2);
    assert_eq!(own.into_inner().unwrap(), 2);
}
