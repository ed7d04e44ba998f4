// A process that is forked with a lock held, and takes another one under it.
use lockdep_record::Mutex;

static A: Mutex<i32> = Mutex::new(0);
static B: Mutex<i32> = Mutex::new(0);

extern "C" {
    fn fork() -> i32;
    fn waitpid(process: i32, status: *mut i32, options: i32) -> i32;
}

fn main() {
    let a = A.lock().unwrap();
    let child = unsafe { fork() };
    if child == 0 {
        drop(B.lock().unwrap());
        drop(a);
        return;
    }
    unsafe { waitpid(child, std::ptr::null_mut(), 0) };
}
