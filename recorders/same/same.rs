use lockdep_record::thread;
use lockdep_record::{Condvar, Mutex, RwLock};
use std::sync::atomic::{AtomicBool, Ordering};

static A: Mutex<bool> = Mutex::new(false); // lock A
static B: Mutex<bool> = Mutex::new(false); // lock B
static C: RwLock<()> = RwLock::new(()); // lock C
static G: Mutex<bool> = Mutex::new(false); // lock G
static CONDITION: Condvar = Condvar::new();
static SAID: AtomicBool = AtomicBool::new(false);

fn in_order(first: &Mutex<bool>, second: &Mutex<bool>) {
    let _first = first.lock().unwrap();
    let _second = second.lock().unwrap();
}

fn abba() {
    thread::spawn(|| in_order(&A, &B)).join().unwrap();
    thread::spawn(|| in_order(&B, &A)).join().unwrap();
}

fn await_said() {
    while !SAID.load(Ordering::Relaxed) {
        std::thread::yield_now();
    }
}

fn crossed(back: fn()) {
    let there = thread::spawn(|| {
        in_order(&A, &B);
        SAID.store(true, Ordering::Relaxed);
    });
    let then = thread::spawn(move || {
        await_said();
        back();
    });
    there.join().unwrap();
    then.join().unwrap();
}

fn try_back() {
    let _first = B.lock().unwrap();
    let _second = A.try_lock().unwrap();
}

fn inside(first: &Mutex<bool>, second: &Mutex<bool>) {
    let _gate = G.lock().unwrap();
    in_order(first, second);
}

fn gate() {
    let there = thread::spawn(|| inside(&A, &B));
    let back = thread::spawn(|| inside(&B, &A));
    there.join().unwrap();
    back.join().unwrap();
}

fn held() {
    let thread = thread::spawn(|| {
        drop(A.lock().unwrap());
        SAID.store(true, Ordering::Relaxed);
    });
    await_said();
    let _held = A.lock().unwrap();
    thread.join().unwrap();
}

fn notified() {
    let thread = thread::spawn(|| {
        let mut is_set = G.lock().unwrap();
        SAID.store(true, Ordering::Relaxed);
        while !*is_set {
            is_set = CONDITION.wait(is_set).unwrap();
        }
        drop(is_set);
        in_order(&B, &A);
    });
    in_order(&A, &B);
    await_said();
    let mut is_set = G.lock().unwrap();
    *is_set = true;
    CONDITION.notify_one();
    drop(is_set);
    thread.join().unwrap();
}

fn long() {
    for _ in 0..70_000 {
        drop(A.lock().unwrap());
    }
    abba();
}

fn try_second() {
    let _first = A.lock().unwrap();
    let _second = B.try_lock().unwrap();
}

fn wait_for_condition() {
    let waiting = thread::spawn(|| {
        let _outer = B.lock().unwrap();
        let mut is_set = A.lock().unwrap();
        SAID.store(true, Ordering::Relaxed);
        while !*is_set {
            is_set = CONDITION.wait(is_set).unwrap();
        }
    });
    await_said();
    thread::spawn(|| {
        let mut is_set = A.lock().unwrap();
        *is_set = true;
        CONDITION.notify_one();
    })
    .join()
    .unwrap();
    waiting.join().unwrap();
}

fn join() {
    let _held = A.lock().unwrap();
    thread::spawn(|| drop(B.lock().unwrap())).join().unwrap();
}

fn reader() {
    let _held = A.lock().unwrap();
    let _reader = C.read().unwrap();
}

fn fifty() {
    let locks: Vec<Mutex<()>> = (0..50).map(|_| Mutex::new(())).collect(); // lock L
    let guards: Vec<_> = locks.iter().map(|lock| lock.lock().unwrap()).collect();
    drop(guards); // (in the order in which they were taken)
}

fn main() {
    match std::env::args().nth(1).as_deref() {
        Some("abba") => abba(),
        Some("crossed") => crossed(|| in_order(&B, &A)),
        Some("tried") => crossed(try_back),
        Some("gate") => gate(),
        Some("held") => held(),
        Some("notified") => notified(),
        Some("long") => long(),
        Some("try") => try_second(),
        Some("condition") => wait_for_condition(),
        Some("join") => join(),
        Some("reader") => reader(),
        _ => fifty(),
    }
}
