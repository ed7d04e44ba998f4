// Ten threads at once, each with a lock of its own under one that all take.
use lockdep_record::{Barrier, Mutex};

static ALL: Mutex<i32> = Mutex::new(0);

fn main() {
    let own: Vec<Mutex<i32>> = (0..10).map(|_| Mutex::new(0)).collect();
    let barrier = Barrier::new(10);
    std::thread::scope(|scope| {
        for lock in &own {
            scope.spawn(|| {
                barrier.wait();
                for _ in 0..1000 {
                    let _all = ALL.lock().unwrap();
                    *lock.lock().unwrap() += 1;
                }
            });
        }
    });
}
