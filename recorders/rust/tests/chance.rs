// Takes locks at random in several threads, in all ways and with all orders of release, and prints which orders there were. Within a
// thread locks are taken in the order of their numbers, except by tries, so nothing hangs.
use lockdep_record::{Mutex, MutexGuard, RwLock, RwLockReadGuard, RwLockWriteGuard};
use std::collections::BTreeSet;

static M0: Mutex<i32> = Mutex::new(0);
static M1: Mutex<i32> = Mutex::new(0);
static M2: Mutex<i32> = Mutex::new(0);
static L3: RwLock<i32> = RwLock::new(0);
static L4: RwLock<i32> = RwLock::new(0);
static L5: RwLock<i32> = RwLock::new(0);

#[allow(dead_code)]
enum Guard {
    Mutex(MutexGuard<'static, i32>),
    Reader(RwLockReadGuard<'static, i32>),
    Writer(RwLockWriteGuard<'static, i32>),
}

struct Held {
    number: usize,
    mode: &'static str,
    _guard: Guard,
}

fn chance(state: &mut u64) -> u64 {
    *state ^= *state << 13;
    *state ^= *state >> 7;
    *state ^= *state << 17;
    *state
}

fn take(number: usize, way: u64, is_try: bool) -> Option<(&'static str, Guard)> {
    if number < 3 {
        let mutex = [&M0, &M1, &M2][number];
        return Some(if is_try { ("tw", Guard::Mutex(mutex.try_lock().ok()?)) } else { ("w", Guard::Mutex(mutex.lock().unwrap())) });
    }
    let lock = [&L3, &L4, &L5][number - 3];
    Some(match (way % 2 == 0, is_try) {
        (true, true) => ("tr", Guard::Reader(lock.try_read().ok()?)),
        (true, false) => ("r", Guard::Reader(lock.read().unwrap())),
        (false, true) => ("tw", Guard::Writer(lock.try_write().ok()?)),
        (false, false) => ("w", Guard::Writer(lock.write().unwrap())),
    })
}

fn works(seed: u64) -> BTreeSet<String> {
    let (mut state, mut held, mut seen) = (seed, Vec::<Held>::new(), BTreeSet::new());
    for _ in 0..3000 {
        let number = chance(&mut state) as usize % 6;
        let is_free = held.iter().all(|each| each.number != number);
        let is_last = held.iter().all(|each| each.number < number);
        let is_try = !is_last || chance(&mut state) % 4 == 0;
        if is_free && chance(&mut state) % 2 == 0 {
            let Some((mode, guard)) = take(number, chance(&mut state), is_try) else { continue };
            let before: Vec<String> = held.iter().map(|each| format!("{}{}", each.number, each.mode)).collect();
            seen.insert(format!("{number}{mode}:{}", before.join(",")));
            held.push(Held { number, mode, _guard: guard });
        } else if !held.is_empty() {
            held.remove(chance(&mut state) as usize % held.len());
        }
    }
    seen
}

fn main() {
    let threads: Vec<_> = (1..=4).map(|seed| std::thread::spawn(move || works(seed * 7919))).collect();
    let all: BTreeSet<String> = threads.into_iter().flat_map(|thread| thread.join().unwrap()).collect();
    all.iter().for_each(|line| println!("{line}"));
}
