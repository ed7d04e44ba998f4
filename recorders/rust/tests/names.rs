// How classes are named: two locks on one line, fields of a structure that derives `Default`, what the library makes, a long type.
use lockdep_record::{Mutex, RwLock};
use std::collections::HashMap;

#[derive(Default)]
struct Account {
    balance: Mutex<i64>,
    name: Mutex<String>,
}

#[allow(clippy::type_complexity)]
fn main() {
    let (a, b) = (Mutex::new(1), Mutex::new(2));
    let account = Account::default();
    let made: Vec<Mutex<i32>> = vec![3].into_iter().map(Mutex::new).collect();
    let mut table: HashMap<i32, RwLock<u8>> = HashMap::new();
    let long: Mutex<Result<(u64, u64), Box<dyn Fn(HashMap<String, String>) -> u64>>> = Mutex::from(Ok((1, 2)));
    let array = [const { Mutex::new(1) }; 2];
    drop((a.lock(), b.lock(), account.balance.lock(), account.name.lock(), made[0].lock()));
    drop((table.entry(1).or_default().read().map(|guard| *guard), long.lock(), array[0].lock(), array[1].lock()));
}
