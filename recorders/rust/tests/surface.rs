// All of std::sync and std::thread by their names in this crate, as one program that has to compile and run in both builds.
#![allow(deprecated, dead_code)]
use lockdep_record::atomic::{AtomicUsize, Ordering};
use lockdep_record::mpsc::{channel, sync_channel};
use lockdep_record::thread;
use lockdep_record::thread::{Builder, JoinHandle, Scope, ScopedJoinHandle, Thread, ThreadId};
use lockdep_record::{
    Arc, Barrier, BarrierWaitResult, Condvar, LazyLock, LockResult, Mutex, MutexGuard, Once, OnceLock, OnceState, PoisonError,
    RwLock, RwLockReadGuard, RwLockWriteGuard, TryLockError, TryLockResult, WaitTimeoutResult, Weak, ONCE_INIT,
};
use std::cell::{Cell, RefCell};
use std::fmt::{Debug, Display};
use std::os::unix::thread::JoinHandleExt;
use std::panic::{RefUnwindSafe, UnwindSafe};
use std::time::Duration;

static MUTEX: Mutex<i32> = Mutex::new(1);
static LOCK: RwLock<i32> = RwLock::new(1);
static CONDITION: Condvar = Condvar::new();
static ONCE: Once = Once::new();
static OLD_ONCE: Once = ONCE_INIT;
static CELL: OnceLock<String> = OnceLock::new();
static LAZY: LazyLock<Vec<i32>> = LazyLock::new(|| vec![1]);
const MANY: [Mutex<u8>; 3] = [const { Mutex::new(7) }; 3];

const fn in_constants(value: i32) -> (Mutex<i32>, RwLock<i32>, Condvar, Once, OnceLock<i32>) {
    (Mutex::new(value), RwLock::new(value), Condvar::new(), Once::new(), OnceLock::new())
}

fn is_shared<T: Send + Sync>() {}
fn is_safe<T: UnwindSafe + RefUnwindSafe>() {}
fn is_default<T: Default + Debug>() {}
fn is_shown<T: Debug + Display + ?Sized>(_: &T) {}

fn has_traits() {
    is_shared::<Mutex<Cell<i32>>>();
    is_shared::<RwLock<i32>>();
    is_shared::<(Condvar, Once, OnceLock<i32>, LazyLock<i32>, Barrier)>();
    is_safe::<(Mutex<RefCell<i32>>, RwLock<RefCell<i32>>, Condvar, Once, OnceLock<i32>, LazyLock<i32>)>();
    is_default::<(Mutex<i32>, RwLock<i32>, Condvar, OnceLock<i32>, LazyLock<i32>)>();
    is_shared::<(JoinHandle<Cell<i32>>, ScopedJoinHandle<'static, i32>, Scope<'static, 'static>, Builder, Thread, ThreadId)>();
    fn of_guards<'a>(mutex: MutexGuard<'a, i32>, reader: RwLockReadGuard<'a, i32>, writer: RwLockWriteGuard<'a, i32>) {
        fn is_seen<T: Sync>(_: &T) {}
        is_seen(&mutex);
        is_seen(&reader);
        is_seen(&writer);
        is_shown(&mutex);
        is_shown(&reader);
        is_shown(&writer);
    }
    let _ = of_guards;
}

/// A lock that borrows what is dropped with it, and a guard as the last value of a block.
struct Borrows<'a> {
    lock: Option<Mutex<&'a str>>,
    text: String,
}

fn borrows() -> usize {
    let text = String::from("text");
    let lock = Mutex::new(&*text);
    let length = lock.lock().unwrap().len();
    let both: (String, RefCell<Option<&Mutex<&str>>>) = (String::new(), RefCell::new(None));
    both.1.replace(Some(&lock));
    length
}

fn narrows<'a, 'b: 'a>(guard: MutexGuard<'b, i32>) -> MutexGuard<'a, i32> {
    guard
}

fn unsized_ones() {
    let object: Arc<Mutex<dyn Debug>> = Arc::new(Mutex::new(5));
    assert_eq!(format!("{:?}", object.lock().unwrap()), "5");
    let slice: Box<RwLock<[u8]>> = Box::new(RwLock::new([1, 2, 3]));
    assert_eq!(slice.read().unwrap().len(), 3);
    slice.write().unwrap()[0] = 2;
    let reference: &Mutex<[i32]> = &Mutex::new([1, 2]);
    assert_eq!(reference.lock().map(|mut guard| std::mem::take(&mut guard[1])).unwrap(), 2);
}

fn mutexes() -> LockResult<()> {
    let mut own = Mutex::new(vec![1]);
    own.get_mut().unwrap().push(2);
    assert_eq!(format!("{own:?}"), "Mutex { data: [1, 2], poisoned: false, .. }");
    let guard = own.lock().unwrap();
    assert_eq!(format!("{own:?} {guard:?}"), "Mutex { data: \"<locked>\", poisoned: false, .. } [1, 2]");
    drop(guard);
    let tried: TryLockResult<MutexGuard<'_, Vec<i32>>> = own.try_lock();
    assert!(!matches!(tried, Err(TryLockError::WouldBlock) | Err(TryLockError::Poisoned(_))));
    drop(tried);
    own.clear_poison();
    assert!(!own.is_poisoned());
    assert_eq!(own.into_inner().unwrap(), [1, 2]);
    let locks: Vec<Mutex<i32>> = vec![1, 2].into_iter().map(Mutex::new).collect();
    let guards: Vec<_> = locks.iter().map(Mutex::lock).map(LockResult::unwrap).collect();
    assert_eq!(guards.iter().map(|guard| **guard).sum::<i32>(), 3);
    assert_eq!(*narrows(MUTEX.lock().unwrap()) + *Mutex::from(1).lock().unwrap(), 2);
    let poison: PoisonError<i32> = PoisonError::new(4);
    assert_eq!((*poison.get_ref(), poison.into_inner()), (4, 4));
    Ok(())
}

fn read_write_locks() {
    let mut own: RwLock<i32> = RwLock::default();
    *own.get_mut().unwrap() = 1;
    *own.write().unwrap() += 1;
    let reader: RwLockReadGuard<'_, i32> = RwLockWriteGuard::downgrade(own.write().unwrap());
    assert!(own.try_write().is_err() && own.try_read().is_ok());
    assert_eq!(format!("{reader} {reader:?} {own:?}"), "2 2 RwLock { data: 2, poisoned: false, .. }");
    drop(reader);
    own.clear_poison();
    assert!(!own.is_poisoned() && own.into_inner().unwrap() == 2 && *LOCK.read().unwrap() == 1);
}

fn conditions() {
    let guard = CONDITION.wait_while(MUTEX.lock().unwrap(), |value| *value == 0).unwrap();
    let (guard, result): (_, WaitTimeoutResult) = CONDITION.wait_timeout(guard, Duration::ZERO).unwrap();
    assert_eq!(format!("{result:?} {CONDITION:?}"), "WaitTimeoutResult(true) Condvar { .. }");
    let (guard, _) = CONDITION.wait_timeout_while(guard, Duration::ZERO, |_| true).unwrap();
    drop(CONDITION.wait_timeout_ms(guard, 0));
    CONDITION.notify_one();
    CONDITION.notify_all();
    let _ = Condvar::wait::<i32>;
}

fn once() {
    ONCE.call_once(|| ());
    OLD_ONCE.call_once_force(|state: &OnceState| assert!(!state.is_poisoned()));
    ONCE.wait();
    ONCE.wait_force();
    assert!(ONCE.is_completed() && format!("{ONCE:?}") == "Once { .. }");
    let mut own: OnceLock<i32> = OnceLock::from(1);
    assert_eq!((own.get(), own.clone() == own, own.set(2), *own.wait()), (Some(&1), true, Err(2), 1));
    assert_eq!((own.get_mut().copied(), own.take(), format!("{own:?}")), (Some(1), Some(1), "OnceLock(<uninit>)".into()));
    assert_eq!((*own.get_or_init(|| 3), own.into_inner()), (3, Some(3)));
    assert_eq!(CELL.get_or_init(|| "x".into()), "x");
    let mut lazy = LazyLock::new(|| 5);
    assert_eq!((LazyLock::get(&lazy), format!("{lazy:?}")), (None, "LazyLock(<uninit>)".into()));
    *LazyLock::force_mut(&mut lazy) += 1;
    *lazy += 1;
    assert_eq!((*LazyLock::force(&lazy), LazyLock::get_mut(&mut lazy), LAZY.len()), (7, Some(&mut 7), 1));
}

fn others() {
    let barrier = Barrier::new(1);
    let result: BarrierWaitResult = barrier.wait();
    let count = AtomicUsize::new(1);
    count.fetch_add(1, Ordering::Relaxed);
    let (sender, receiver) = channel();
    let (bounded, bounded_receiver) = sync_channel(1);
    sender.send(1).unwrap();
    bounded.send(2).unwrap();
    let weak: Weak<i32> = Arc::downgrade(&Arc::new(1));
    assert!(result.is_leader() && weak.upgrade().is_none() && receiver.recv().unwrap() + bounded_receiver.recv().unwrap() == 3);
    assert_eq!(MANY.map(|lock| lock.into_inner().unwrap()), [7; 3]);
    let _ = in_constants(1);
}

fn threads() {
    let first = thread::spawn(|| thread::current().name().map(String::from));
    assert!(first.thread().name().is_none() && format!("{first:?}") == "JoinHandle { .. }");
    assert_eq!(first.join().unwrap(), None);
    let named = Builder::new().name("one".into()).stack_size(1 << 20);
    assert!(format!("{named:?}").starts_with("Builder { name: Some(\"one\"), stack_size: Some(1048576)"));
    let named = named.spawn(|| thread::current().name().map(String::from)).unwrap();
    assert!(named.as_pthread_t() != 0 && named.thread().name() == Some("one") && named.thread().id() != thread::current().id());
    while !named.is_finished() {
        thread::yield_now();
    }
    assert_eq!(named.join().unwrap().as_deref(), Some("one"));
    let text = String::from("text");
    assert_eq!(unsafe { Builder::new().spawn_unchecked(|| text.len()) }.unwrap().join().unwrap(), 4);
    let failed = thread::spawn(|| std::panic::resume_unwind(Box::new(7)));
    assert_eq!(failed.join().map(|()| 0).unwrap_err().downcast_ref(), Some(&7));
    assert!(Builder::new().stack_size(usize::MAX / 2).spawn(|| 1).is_err() && thread::available_parallelism().is_ok());
    unsafe { detach(thread::spawn(thread::park).into_pthread_t()) };
}

extern "C" {
    #[link_name = "pthread_detach"]
    fn detach(thread: std::os::unix::thread::RawPthread) -> i32;
}

fn scopes() {
    let (mut numbers, text, count) = (vec![1, 2], String::from("text"), AtomicUsize::new(0));
    let length = thread::scope(|scope| {
        scope.spawn(|| numbers.push(3));
        let inner = Builder::new().name("inner".into()).spawn_scoped(scope, || scope.spawn(|| text.len()).join().unwrap()).unwrap();
        scope.spawn(|| scope.spawn(|| scope.spawn(|| count.fetch_add(1, Ordering::Relaxed))));
        assert!(inner.thread().name() == Some("inner") && format!("{inner:?} {scope:?}").starts_with("ScopedJoinHandle { .. } Scope {"));
        while !inner.is_finished() {
            thread::sleep(Duration::from_millis(1));
        }
        let both: [ScopedJoinHandle<'_, usize>; 2] = [inner, scope.spawn(|| text.len())];
        both.into_iter().map(|each| each.join().unwrap()).sum::<usize>()
    });
    assert_eq!((numbers.len(), length, count.into_inner()), (3, 8, 1));
    let is_left = AtomicUsize::new(0);
    let panicked = std::panic::catch_unwind(|| {
        thread::scope(|scope| {
            scope.spawn(|| is_left.fetch_add(1, Ordering::Relaxed));
            std::panic::resume_unwind(Box::new(5))
        })
    });
    assert_eq!((panicked.map(|()| 0).unwrap_err().downcast_ref(), is_left.into_inner()), (Some(&5), 1));
    let caught = thread::scope(|scope| scope.spawn(|| std::panic::resume_unwind(Box::new(6))).join().map(|()| 0));
    assert_eq!(caught.unwrap_err().downcast_ref(), Some(&6));
}

fn main() {
    has_traits();
    assert_eq!(borrows(), 4);
    unsized_ones();
    mutexes().unwrap();
    read_write_locks();
    conditions();
    once();
    others();
    threads();
    scopes();
    println!("all of it");
}
