//! What an acquisition with its release costs, in nanoseconds of wall-clock time.
use lockdep_record::{thread, LazyLock, Mutex, RwLock};
use std::hint::black_box;
use std::time::Instant;

const TURNS: u32 = 2_000_000;
const WANTED: u32 = 20_000;
const STARTED: u32 = 2_000;

static OUTER: Mutex<u64> = Mutex::new(0);
static INNER: Mutex<u64> = Mutex::new(0);
static TABLE: RwLock<u64> = RwLock::new(0);
static LAZY: LazyLock<u64> = LazyLock::new(|| 1);

fn measure(name: &str, turns: u32, mut work: impl FnMut()) {
    measure_each(name, turns, 1, &mut work);
}

/// Measures what does something so many times in each turn.
fn measure_each(name: &str, turns: u32, times: u32, work: &mut dyn FnMut()) {
    work();
    let start = Instant::now();
    for _ in 0..turns {
        work();
    }
    println!("{name}\t{}", start.elapsed().as_nanos() as f64 / f64::from(turns) / f64::from(times));
}

fn takes_one() {
    *INNER.lock().unwrap() += 1;
}

fn main() {
    measure("a mutex", TURNS, || *black_box(&OUTER).lock().unwrap() += 1);
    measure("a mutex, by `try_lock`", TURNS, || *black_box(&OUTER).try_lock().unwrap() += 1);
    measure("a reader", TURNS, || drop(black_box(&TABLE).read().unwrap()));
    measure("a writer", TURNS, || *black_box(&TABLE).write().unwrap() += 1);
    let outer = OUTER.lock().unwrap();
    measure("a mutex under another one", TURNS, || *black_box(&INNER).lock().unwrap() += 1);
    measure("a `LazyLock` that is there, with a lock held", TURNS, || {
        black_box(**black_box(&LAZY));
    });
    measure("a thread, started and joined with a lock held", STARTED, || thread::spawn(takes_one).join().unwrap());
    drop(outer);
    measure("a thread, started and joined", STARTED, || thread::spawn(takes_one).join().unwrap());
    measure("a `LazyLock` that is there", TURNS, || {
        black_box(**black_box(&LAZY));
    });
    measure_each("two mutexes, one in the other, that four threads want", 20, 4 * WANTED, &mut || {
        thread::scope(|scope| {
            for _ in 0..4 {
                scope.spawn(|| {
                    for _ in 0..WANTED {
                        let _outer = OUTER.lock().unwrap();
                        *INNER.lock().unwrap() += 1;
                    }
                });
            }
        });
    });
}
