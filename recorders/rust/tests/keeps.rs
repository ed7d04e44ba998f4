// A guard that is leaked, locks that are taken while a thread's own storage is dropped, and a guard that is kept there.
use lockdep_record::{Mutex, MutexGuard};
use std::cell::RefCell;

static A: Mutex<i32> = Mutex::new(0);
static B: Mutex<i32> = Mutex::new(0);
static C: Mutex<i32> = Mutex::new(0);
static D: Mutex<i32> = Mutex::new(0);

struct AtEnd;

impl Drop for AtEnd {
    fn drop(&mut self) {
        let _b = B.lock().unwrap();
        let _c = C.lock().unwrap();
    }
}

thread_local! {
    static AT_END: AtEnd = const { AtEnd };
    static KEPT: RefCell<Option<MutexGuard<'static, i32>>> = const { RefCell::new(None) };
}

fn main() {
    std::thread::spawn(|| std::mem::forget(D.lock().unwrap())).join().unwrap();
    std::thread::spawn(|| {
        // (what exists before the first lock is dropped after the recorder's own data)
        AT_END.with(|_| ());
        drop(C.lock().unwrap());
    })
    .join()
    .unwrap();
    std::thread::spawn(|| KEPT.with(|kept| *kept.borrow_mut() = Some(A.lock().unwrap()))).join().unwrap_or(());
}
