// What is made once: its initialiser runs under it. Later it is an acquisition only with others held.
use lockdep_record::{LazyLock, Mutex, Once, OnceLock};

static A: Mutex<i32> = Mutex::new(0);
static LAZY: LazyLock<i32> = LazyLock::new(|| *A.lock().unwrap() + 1);
static CELL: OnceLock<i32> = OnceLock::new();
static ONCE: Once = Once::new();

fn main() {
    assert_eq!(*LAZY, 1);
    assert_eq!(*LAZY, 1);
    let a = A.lock().unwrap();
    assert_eq!(*LAZY + *a, 1);
    assert_eq!(*CELL.get_or_init(|| 5), 5);
    ONCE.call_once(|| ());
    drop(a);
    assert_eq!((CELL.get(), CELL.set(6)), (Some(&5), Err(6)));
    ONCE.call_once_force(|_| ());
}
