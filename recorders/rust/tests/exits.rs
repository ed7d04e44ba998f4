// The ends that a program can have, with locks held in two orders.
use lockdep_record::Mutex;
use std::process;

static A: Mutex<i32> = Mutex::new(0);
static B: Mutex<i32> = Mutex::new(0);

fn main() {
    std::thread::spawn(|| drop((A.lock().unwrap(), B.lock().unwrap()))).join().unwrap();
    let _b = B.lock().unwrap();
    let _a = A.lock().unwrap();
    match std::env::args().nth(1).as_deref() {
        Some("exit") => process::exit(7),
        Some("abort") => process::abort(),
        Some("panic") => panic!("as it was asked to"),
        Some("kill") => kill(),
        _ => (),
    }
}

fn kill() {
    let _ = process::Command::new("kill").args(["-9", &process::id().to_string()]).status();
    std::thread::park();
}
