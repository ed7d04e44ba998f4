// A guard that another thread drops, which only unsafe code can do.
use lockdep_record::{Mutex, MutexGuard};

static A: Mutex<i32> = Mutex::new(0);
static B: Mutex<i32> = Mutex::new(0);

struct Sent(MutexGuard<'static, i32>);
unsafe impl Send for Sent {}

fn main() {
    let sent = Sent(A.lock().unwrap());
    std::thread::spawn(move || {
        let _b = B.lock().unwrap();
        let whole = sent;
        drop(whole.0);
    })
    .join()
    .unwrap();
    drop(B.lock().unwrap());
}
