// Programs that hang: two threads with two locks, a thread with its own lock, a reader behind a writer that waits for it, and joins of a
// thread with the lock held that it waits for, by a handle, also in a destructor, and by the end of a scope. One that goes on says so.
use lockdep_record::{thread, Arc, Barrier, Mutex, RwLock};
use std::fs::{read_dir, read_link, read_to_string};
use std::{thread::sleep, thread::spawn, thread::Builder, time::Duration};

static A: Mutex<i32> = Mutex::new(0);
static B: Mutex<i32> = Mutex::new(0);
static L: RwLock<i32> = RwLock::new(0);

fn both(first: &'static Mutex<i32>, second: &'static Mutex<i32>, barrier: &Barrier) {
    let _first = first.lock().unwrap();
    barrier.wait();
    drop(second.lock().unwrap());
}

// How often the other threads have gone to sleep, if they all sleep.
fn times_asleep() -> Option<u64> {
    let own = read_link("/proc/thread-self").ok()?;
    let mut times = 0;
    for thread in read_dir("/proc/self/task").ok()? {
        let path = thread.ok()?.path();
        if path.file_name() == own.file_name() {
            continue;
        }
        let status = read_to_string(path.join("status")).ok()?;
        let word = |name| status.lines().find_map(|line| line.strip_prefix(name)?.strip_prefix(":\t"));
        if !word("State")?.starts_with('S') {
            return None;
        }
        times += word("voluntary_ctxt_switches")?.parse::<u64>().ok()?;
    }
    Some(times)
}

// Waits until the other threads all wait: none has woken between two looks.
fn say_when_others_wait(words: &str) {
    loop {
        let before = times_asleep();
        sleep(Duration::from_millis(20));
        if before.is_some() && before == times_asleep() {
            return print!("{words}");
        }
    }
}

fn main() {
    match std::env::args().nth(1).as_deref() {
        Some("two") => {
            let barrier = Arc::new(Barrier::new(2));
            let other = barrier.clone();
            Builder::new().name("pays\ndaily".into()).spawn(move || both(&A, &B, &other)).unwrap();
            spawn(move || both(&B, &A, &barrier));
        }
        Some("again") => {
            spawn(|| drop((A.lock().unwrap(), A.lock().unwrap())));
        }
        Some("join") => {
            let _held = A.lock().unwrap();
            spawn(|| say_when_others_wait("waits\n"));
            thread::spawn(|| drop(A.lock().unwrap())).join().unwrap();
        }
        Some("late") => {
            let _held = A.lock().unwrap();
            spawn(|| say_when_others_wait("waits\n"));
            let thread = thread::spawn(|| LATE.with(|_| ()));
            while !thread.is_finished() {
                std::hint::spin_loop();
            }
            thread.join().unwrap();
        }
        Some("scope") => {
            let held = A.lock().unwrap();
            spawn(|| say_when_others_wait("waits\n"));
            drop(thread::scope(|scope| {
                scope.spawn(|| drop(A.lock().unwrap()));
                held
            }));
        }
        _ => {
            let reader = L.read().unwrap();
            spawn(|| *L.write().unwrap() += 1);
            say_when_others_wait("");
            spawn(|| say_when_others_wait("waits\n"));
            drop((L.read().unwrap(), reader));
        }
    }
    say_when_others_wait("waits\n");
    std::thread::park();
}

struct Late;

impl Drop for Late {
    fn drop(&mut self) {
        drop(A.lock().unwrap());
    }
}

thread_local! {
    static LATE: Late = const { Late };
}
