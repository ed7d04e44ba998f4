// An allocator that takes a lock each time, which the recorder must not call while it records that.
use lockdep_record::{thread, Mutex};
use std::alloc::{GlobalAlloc, Layout, System};

struct Counting;
static COUNT: Mutex<usize> = Mutex::new(0);
static A: Mutex<Vec<i32>> = Mutex::new(Vec::new());

unsafe impl GlobalAlloc for Counting {
    unsafe fn alloc(&self, layout: Layout) -> *mut u8 {
        *COUNT.lock().unwrap() += 1;
        unsafe { System.alloc(layout) }
    }
    unsafe fn dealloc(&self, start: *mut u8, layout: Layout) {
        let _count = COUNT.lock().unwrap();
        unsafe { System.dealloc(start, layout) }
    }
}

#[global_allocator]
static ALLOCATOR: Counting = Counting;

fn main() {
    let threads: Vec<_> = (0..4)
        .map(|number| thread::spawn(move || (0..1000).for_each(|turn| A.lock().unwrap().push(number * turn))))
        .collect();
    static B: Mutex<i32> = Mutex::new(0);
    let _held = B.lock().unwrap();
    threads.into_iter().for_each(|thread| thread.join().unwrap());
    println!("{}", A.lock().unwrap().len());
}
