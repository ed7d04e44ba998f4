// Threads that are joined, by words that say how: with the lock held that the thread takes (held; ended, if it has ended before; panics,
// if it ends so; passed, through a thread that joins it; scoped and scope, by a handle and by the end of a scope), with another one held
// (other), with none (none, joined), of a thread that takes none (idle), or not at all (detached). In `deep`, the thread has held 48.
use lockdep_record::atomic::{AtomicBool, Ordering};
use lockdep_record::{thread, thread::Builder, Mutex, MutexGuard};
use std::{cell::Cell, fs::read_dir, fs::read_to_string, time::Duration};

static STATE: Mutex<i32> = Mutex::new(0);
static LOG: Mutex<i32> = Mutex::new(0);
static MANY: [Mutex<u8>; 48] = [const { Mutex::new(0) }; 48];
static IS_TAKEN: AtomicBool = AtomicBool::new(false);

fn state() -> MutexGuard<'static, i32> {
    STATE.lock().unwrap_or_else(|poison| poison.into_inner())
}

// Whether the main thread sleeps: it waits for the end of another one.
fn main_sleeps() -> bool {
    let path = format!("/proc/self/task/{}/stat", std::process::id());
    read_to_string(path).unwrap().rsplit(')').next().unwrap().trim_start().starts_with('S')
}

fn pause() {
    std::thread::sleep(Duration::from_millis(1));
}

// Waits until the main thread has slept for a while.
fn outlast_main() {
    let mut times = 0;
    while times < 30 {
        times = if main_sleeps() { times + 1 } else { 0 };
        pause();
    }
}

fn await_taken() {
    while !IS_TAKEN.load(Ordering::Acquire) {
        std::hint::spin_loop();
    }
}

fn take_state() {
    drop(state());
    IS_TAKEN.store(true, Ordering::Release);
}

fn work() {
    take_state();
    outlast_main();
}

fn work_and_panic() {
    work();
    std::panic::resume_unwind(Box::new("as it is told"));
}

fn take_many_and_work() {
    drop(MANY.iter().map(|lock| lock.lock().unwrap()).collect::<Vec<_>>());
    work();
}

fn hold_and_join<T>(thread: thread::JoinHandle<T>) -> bool {
    await_taken();
    let _state = state();
    thread.join().is_ok()
}

fn main() {
    match &*std::env::args().nth(1).unwrap() {
        "held" => assert!(hold_and_join(Builder::new().name("worker".into()).spawn(work).unwrap())),
        "ended" => {
            let thread = thread::spawn(take_state);
            while !thread.is_finished() {
                pause();
            }
            assert!(hold_and_join(thread));
        }
        "panics" => assert!(!hold_and_join(thread::spawn(work_and_panic))),
        "passed" => {
            let first = thread::spawn(work);
            assert!(hold_and_join(thread::spawn(move || first.join().unwrap())));
        }
        "scoped" => thread::scope(|scope| {
            let thread = scope.spawn(work);
            await_taken();
            let _state = state();
            thread.join().unwrap();
        }),
        "scope" => drop(thread::scope(|scope| {
            Builder::new().spawn_scoped(scope, move || drop(scope.spawn(work))).unwrap();
            await_taken();
            state()
        })),
        "joined" => drop(thread::scope(|scope| {
            scope.spawn(work).join().unwrap();
            state()
        })),
        "other" => {
            let thread = thread::spawn(work);
            let _log = LOG.lock().unwrap();
            thread.join().unwrap();
        }
        "none" => {
            let first = thread::spawn(work);
            thread::spawn(move || first.join().unwrap()).join().unwrap();
            drop(state());
        }
        "idle" => {
            let thread = thread::spawn(outlast_main);
            let _state = state();
            thread.join().unwrap();
        }
        "detached" => {
            let thread = thread::spawn(take_state);
            await_taken();
            let _state = state();
            drop(thread);
        }
        "deep" => assert!(hold_and_join(thread::spawn(take_many_and_work))),
        "destructor" => assert!(hold_and_join(thread::spawn(|| at_end(work)))),
        "destructor-later" => assert!(hold_and_join(thread::spawn(|| at_end_after_log(work)))),
        "destructor-ended" => {
            let thread = thread::spawn(|| at_end(take_state));
            await_others_end();
            assert!(hold_and_join(thread));
        }
        "destructor-idle" => {
            let thread = thread::spawn(|| (at_end(outlast_main), take_state()));
            while !thread.is_finished() {
                pause();
            }
            assert!(hold_and_join(thread));
        }
        "destructor-scope" => {
            drop(thread::scope(|scope| {
                scope.spawn(|| (at_end(take_state), outlast_main()));
                state()
            }));
            await_others_end();
        }
        "destructor-scope-ended" => drop(thread::scope(|scope| {
            scope.spawn(|| at_end(take_state));
            await_others_end();
            state()
        })),
        "destructor-std" => std::thread::spawn(|| at_end_after_log(take_state)).join().unwrap(),
        _ => at_end_after_log(take_state),
    }
}

// ---- What a thread does when its thread-local values go, in `destructor`: as the only thing, after its function took another lock
// (later), in a thread that is gone before the join (ended), nothing with locks (idle), in a scope, and in threads that std started.

struct AtEnd(Cell<fn()>);

impl Drop for AtEnd {
    fn drop(&mut self) {
        self.0.get()();
    }
}

thread_local! {
    static AT_END: AtEnd = const { AtEnd(Cell::new(|| ())) };
}

fn at_end(work: fn()) {
    AT_END.with(|end| end.0.set(work));
}

fn at_end_after_log(work: fn()) {
    at_end(work);
    drop(LOG.lock().unwrap());
}

// Waits until the other threads are gone, and not only their functions.
fn await_others_end() {
    while read_dir("/proc/self/task").unwrap().count() > 1 {
        pause();
    }
}
