// Programs that are known to deadlock, with their threads one after the other, so that they don't.
use lockdep_record::{Arc, Mutex, RwLock};
use std::thread::spawn;

struct Account {
    balance: Mutex<i64>,
}

impl Account {
    fn new(balance: i64) -> Arc<Account> {
        Arc::new(Account {
            balance: Mutex::new(balance),
        })
    }
}

fn transfer(source: &Account, target: &Account, amount: i64) {
    let mut from = source.balance.lock().unwrap();
    let mut to = target.balance.lock().unwrap();
    *from -= amount;
    *to += amount;
}

fn bank() {
    let (mine, yours) = (Account::new(10), Account::new(10));
    let (own, other) = (mine.clone(), yours.clone());
    spawn(move || transfer(&own, &other, 5)).join().unwrap();
    spawn(move || transfer(&yours, &mine, 5)).join().unwrap();
}

fn philosophers() {
    let forks: Arc<Vec<Mutex<()>>> = Arc::new((0..5).map(|_| Mutex::new(())).collect());
    for seat in 0..5 {
        let forks = forks.clone();
        spawn(move || {
            let _left = forks[seat].lock().unwrap();
            let _right = forks[(seat + 1) % 5].lock().unwrap();
        })
        .join()
        .unwrap();
    }
}

static TABLE: RwLock<i32> = RwLock::new(0);

fn counts() -> i32 {
    *TABLE.read().unwrap()
}

fn readers() {
    let table = TABLE.read().unwrap();
    assert_eq!(counts(), *table);
}

fn main() {
    match std::env::args().nth(1).as_deref() {
        Some("bank") => bank(),
        Some("philosophers") => philosophers(),
        _ => readers(),
    }
}
