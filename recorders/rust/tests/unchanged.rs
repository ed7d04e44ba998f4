// A program whose output, errors and status are the same whether it is recorded or not.
use lockdep_record::thread;
use lockdep_record::{mpsc, Arc, Condvar, LazyLock, Mutex, PoisonError, RwLock};

static NAMES: LazyLock<Mutex<Vec<String>>> = LazyLock::new(Mutex::default);
static TABLE: RwLock<i32> = RwLock::new(1);

#[derive(Debug, Default)]
struct Queue {
    items: Mutex<Vec<i32>>,
    changed: Condvar,
}

fn main() {
    let queue = Arc::new(Queue::default());
    let (sender, receiver) = mpsc::channel();
    let own = queue.clone();
    let taker = thread::spawn(move || {
        for _ in 0..100 {
            let mut items = own.changed.wait_while(own.items.lock().unwrap(), |items| items.is_empty()).unwrap();
            sender.send(items.pop().unwrap() + *TABLE.read().unwrap()).unwrap();
        }
    });
    for item in 0..100 {
        queue.items.lock().unwrap().push(item);
        queue.changed.notify_one();
    }
    taker.join().unwrap();
    println!("{} {queue:?}", receiver.iter().sum::<i32>());
    let panicked = thread::Builder::new().name("one".into()).spawn(|| {
        let _names = NAMES.lock().unwrap();
        panic!("with a lock held");
    });
    println!("{:?}", panicked.unwrap().join().unwrap_err().downcast_ref::<&str>());
    let scope = std::panic::catch_unwind(|| {
        thread::scope(|scope| {
            let _names = TABLE.read();
            scope.spawn(|| panic!("in a scope"));
        })
    });
    println!("{:?}", scope.unwrap_err().downcast_ref::<&str>());
    println!("{:?} {:?}", NAMES.is_poisoned(), NAMES.lock().unwrap_or_else(PoisonError::into_inner));
    println!("{:?}", std::env::args().skip(1).collect::<Vec<_>>());
    eprintln!("{:?}", NAMES.try_lock());
    NAMES.lock().unwrap().push("never".into());
}
