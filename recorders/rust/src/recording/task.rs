//! What a thread does with locks.
//!
//! Records are left out by the rule of docs/RECORDING.md: a stretch that comes back to the locks that were held at its start, and takes
//! nothing in a way in which its thread hadn't taken it before, is dropped. A way is the held locks and the new one, in their order: a
//! node of a tree, of which each thread has its own. What is new is written at once, unless many threads did the same.
use super::lives::{end_own_life, own_life, Life};
use super::names::Mark;
use super::process::{self, Trace, COUNTS, PROCESS};
use super::steps;
use super::store::{mixed, List, Table};
use std::alloc::{GlobalAlloc, Layout, System};
use std::cell::Cell;
use std::panic::Location;
use std::sync::atomic::{compiler_fence, AtomicBool, AtomicU64, Ordering};

mod calls;
mod writing;

pub use calls::{
    begin_join, begin_pending, failed_try, gave, get_message, give_message, has_joined, holds_something, joins, may_join, note_join, took, took_unordered, Pending,
};

/// How a lock is taken.
#[derive(Clone, Copy, PartialEq)]
pub enum Mode {
    Write = 0,
    Read = 1,
    TryWrite = 2,
    TryRead = 3,
}

const MODE_COUNT: u32 = 4;

impl Mode {
    /// The mode as the files have it.
    fn in_files(self) -> u32 {
        writing::MODES[self as usize]
    }
}

const MOST_HELD: usize = 48;
const MOST_EVENTS: u64 = 1_000_000 - 2 * MOST_HELD as u64;

/// After how many operations of a thread its counts are written.
const OPERATIONS_A_WRITING: u64 = 1 << 16;

pub type Place = &'static Location<'static>;

/// An acquisition, as its guard keeps it: the thread, and which of its acquisitions; and the lock's number in the order of steps. One that isn't in the
/// trace is 0 of thread 0.
#[derive(Clone, Copy, PartialEq)]
pub struct Token {
    task: u32,
    number: u32,
    lock: u32,
}

const LEFT_OUT: Token = Token { task: 0, number: 0, lock: 0 };

/// A record: MODE_COUNT * a lock + a mode, and where the lock is taken, or nowhere if it is released.
#[derive(Clone, Copy)]
struct Record {
    code: u32,
    place: Option<Place>,
}

/// Where something begins that has no beginning in the trace or in the file, or that another process wrote.
const NOWHERE: u64 = u64::MAX;

/// A held lock: the record from which on what was done may be dropped, where that is in the file, and the way before.
#[derive(Clone, Copy)]
struct Held {
    number: u32,
    code: u32,
    lock: u32,
    place: Place,
    start: u64,
    offset: u64,
    before: u32,
}

#[derive(Clone, Copy)]
struct Way {
    hash: u64,
    is_taken: bool,
}

/// The root of the tree of a thread that nobody joins.
const NO_LIFE: u64 = 1;

/// The tree of everything that a thread held. 0 is its root.
struct Ways {
    all: List<Way>,
    after: Table,
}

impl Ways {
    /// The tree of a thread that begins. Ways of threads of one class are alike, and not those of others, which have another root.
    fn new(root: u64) -> Ways {
        let mut ways = Ways { all: List::new(), after: Table::new() };
        ways.all.push(Way { hash: root, is_taken: true });
        ways
    }

    /// The way with one more lock. None if there is no memory for it.
    fn to(&mut self, way: u32, code: u32) -> Option<u32> {
        let step = (u64::from(way) << 32) | u64::from(code);
        if let Some(found) = self.after.get(step) {
            return Some(found);
        }
        let new = self.all.len() as u32;
        let hash = mixed(self.all.get(way as usize)?.hash ^ mixed(u64::from(code))).max(1);
        (self.all.push(Way { hash, is_taken: false }) && self.after.set(step, new)).then_some(new)
    }
}

/// A thread.
pub struct Task {
    pub next: *mut Task,
    pub counts: [AtomicU64; COUNTS],
    serial: u32,
    numbers: u32,
    is_busy: AtomicBool,
    is_late: bool,
    is_over: bool,
    waits: bool,
    pid: u32,
    life: u32,
    has_foreign: AtomicBool,
    count: usize,
    held: [Held; MOST_HELD],
    way: u32,
    ways: Ways,
    records: List<Record>,
    base: u64,
    fresh: u64,
    failed: *const Mark,
    trace: Option<Trace>,
    told: List<Record>,
    pub own: steps::Own,
    places: Table,
}

thread_local! {
    static HERE: Cell<*mut Task> = const { Cell::new(std::ptr::null_mut()) };
    static GUARD: Guard = const { Guard };
}

/// Ends the thread's recording with the thread, and what it is itself.
struct Guard;

impl Drop for Guard {
    fn drop(&mut self) {
        end_own_life(); // (first, since the program's allocator, which it uses, may take locks)
        end_here();
    }
}

/// The running thread is recorded until the thread-local values have gone that it makes from now on: the last made goes first. False if
/// it is at its end already.
pub fn end_with_thread() -> bool {
    GUARD.try_with(|_| ()).is_ok()
}

/// What the running thread has, in a forked process.
pub fn only_task() -> *mut Task {
    let task = HERE.get();
    if let Some(task) = unsafe { task.as_mut() } {
        task.next = std::ptr::null_mut();
        for count in &task.counts {
            count.store(0, Ordering::Relaxed);
        }
    }
    task
}

/// Does something with the running thread, unless that is being done. None if it isn't recorded.
#[inline]
fn with_task<R>(work: impl FnOnce(&mut Task) -> R) -> Option<R> {
    let mut here = HERE.get();
    if here.is_null() {
        here = begin_here();
    }
    if here.is_null() || !enter(here) {
        return None;
    }
    let task = unsafe { &mut *here };
    if task.has_foreign.load(Ordering::Relaxed) {
        task.settle();
    }
    let result = work(task);
    task.leave();
    Some(result)
}

/// Begins to look at a thread. False if that is being done, as if a signal's handler interrupted it, which is counted. (Such a handler
/// runs in the thread itself, so nothing more than the order of the steps is needed.)
#[inline]
fn enter(task: *const Task) -> bool {
    let is_free = unsafe { !(*task).is_busy.load(Ordering::Relaxed) };
    if is_free {
        unsafe { (*task).is_busy.store(true, Ordering::Relaxed) };
        compiler_fence(Ordering::SeqCst);
    } else {
        count_reentered(unsafe { &(*task).counts });
    }
    is_free
}

#[cold]
fn count_reentered(counts: &[AtomicU64; COUNTS]) {
    counts[process::REENTERED].fetch_add(1, Ordering::Relaxed);
}

/// The running thread takes its first lock. If it is at its end already, what it has ends when it holds nothing.
#[cold]
fn begin_here() -> *mut Task {
    if !process::is_on() {
        return std::ptr::null_mut();
    }
    let task: *mut Task = unsafe { System.alloc(Layout::new::<Task>()) }.cast();
    if task.is_null() {
        return task;
    }
    unsafe { task.write(Task::new()) };
    HERE.set(task);
    // (so that whatever the library does for this finds a busy thread)
    let is_late = !end_with_thread();
    unsafe { (*task).begin_life(own_life()) };
    PROCESS.with(|process| unsafe {
        (*task).serial = process.next_serial();
        (*task).is_late = is_late;
        (*task).leave();
        (*task).next = process.tasks;
        process.tasks = task;
    });
    task
}

/// The running thread has ended, or is late and holds nothing more. What it still holds may yet be released by the destructors of its
/// thread-local values.
#[cold]
fn end_here() {
    let here = HERE.get();
    if here.is_null() || !process::is_on() || !enter(here) {
        return;
    }
    let task = unsafe { &mut *here };
    if task.count > 0 {
        task.is_late = true;
        task.say_end();
        return task.leave();
    }
    task.finish();
    PROCESS.with(|process| unsafe {
        let mut link: *mut *mut Task = &mut process.tasks;
        while !(*link).is_null() && *link != here {
            link = &mut (**link).next;
        }
        if *link == here {
            *link = task.next;
        }
        process.add_counts(task);
    });
    HERE.set(std::ptr::null_mut());
    unsafe {
        here.drop_in_place();
        System.dealloc(here.cast(), Layout::new::<Task>());
    }
}

// ---- The records.

impl Task {
    fn new() -> Task {
        let nothing = Held { number: 0, code: 0, lock: 0, place: Location::caller(), start: 0, offset: NOWHERE, before: 0 };
        Task {
            next: std::ptr::null_mut(),
            counts: [const { AtomicU64::new(0) }; COUNTS],
            serial: 0,
            numbers: 0,
            is_busy: AtomicBool::new(true),
            is_late: false,
            is_over: false,
            waits: false,
            pid: std::process::id(),
            life: 0,
            has_foreign: AtomicBool::new(false),
            count: 0,
            held: [nothing; MOST_HELD],
            way: 0,
            ways: Ways::new(NO_LIFE),
            records: List::new(),
            base: 0,
            fresh: 0,
            failed: std::ptr::null(),
            trace: None,
            told: List::new(),
            own: steps::Own::new(),
            places: Table::new(),
        }
    }

    /// Ends what `enter` began.
    #[inline]
    fn leave(&self) {
        compiler_fence(Ordering::SeqCst);
        self.is_busy.store(false, Ordering::Relaxed);
    }

    /// Adds to a count. (Only the thread itself does so, so this needn't be atomic.)
    #[inline]
    fn add(&self, what: usize, count: u64) {
        self.counts[what].store(self.counts[what].load(Ordering::Relaxed) + count, Ordering::Relaxed);
    }

    /// Counts something that is left out. The first ones are written at once, so that a signal doesn't lose them.
    #[cold]
    fn lose(&self, what: usize) {
        self.add(what, 1);
        if self.counts[what].load(Ordering::Relaxed).is_power_of_two() && process::is_on() {
            process::put_counts();
        }
    }

    #[inline]
    fn here(&self) -> u64 {
        self.base + self.records.len() as u64
    }

    /// The thread has what it is itself to its end.
    fn begin_life(&mut self, life: *const Life) {
        let Some(life) = (unsafe { life.as_ref() }) else { return };
        self.life = life.begins(self.own.member);
        self.ways = Ways::new(life.class());
        self.note(steps::BEGINS, life.message(), None, 0);
    }

    fn hold_by_waiting(&mut self, mark: &Mark, mode: Mode, place: Place) -> Token {
        let token = self.hold(mark, mode, place, true);
        if token != LEFT_OUT && self.count > 1 {
            self.flush();
        }
        token
    }

    #[inline]
    fn hold(&mut self, mark: &Mark, mode: Mode, place: Place, waits: bool) -> Token {
        let key = if self.is_over { 0 } else { mark.key(self.count > 0) };
        let lock = self.number_of_lock(mark, key);
        if !waits {
            self.note(steps::TAKES, lock, Some(place), mode.in_files());
        }
        self.hold_key(key, lock, mode, place, waits)
    }

    #[inline]
    fn hold_key(&mut self, key: u32, lock: u32, mode: Mode, place: Place, waits: bool) -> Token {
        self.failed = std::ptr::null();
        if self.is_over || self.waits || self.count >= MOST_HELD || self.here() >= MOST_EVENTS {
            return Token { lock, ..self.leave_out() };
        }
        let code = MODE_COUNT * key + mode as u32;
        let way = if code < MODE_COUNT { None } else { self.ways.to(self.way, code) };
        let Some(way) = way.filter(|_| self.records.push(Record { code, place: Some(place) })) else {
            return self.give_up();
        };
        self.numbers = self.numbers.wrapping_add(1).max(1);
        let start = self.here() - 1;
        self.held[self.count] = Held { number: self.numbers, code, lock, place, start, offset: NOWHERE, before: self.way };
        self.count += 1;
        self.way = way;
        self.waits = waits;
        if !self.ways.all[way as usize].is_taken {
            self.see(way);
        }
        Token { task: self.serial, number: self.numbers, lock }
    }

    /// An acquisition isn't in the trace, so its release isn't either.
    #[cold]
    fn leave_out(&mut self) -> Token {
        if self.is_over {
            // (which is counted for the process)
        } else if self.waits {
            self.add(process::REENTERED, 1);
        } else if self.count >= MOST_HELD {
            self.lose(process::BEYOND_HELD);
        } else {
            self.lose(process::FULL_TRACES);
        }
        LEFT_OUT
    }

    #[inline]
    fn count_operation(&mut self) {
        self.add(process::OPERATIONS, 1);
        if self.counts[process::OPERATIONS].load(Ordering::Relaxed).is_multiple_of(OPERATIONS_A_WRITING) && process::is_on() {
            process::put_counts();
        }
    }

    /// A way is new to the thread. It is written at once, unless many threads wrote it.
    #[cold]
    fn see(&mut self, way: u32) {
        self.ways.all[way as usize].is_taken = true;
        self.fresh = self.here();
        if !process::is_on() {
            return self.end_early();
        }
        let hash = self.ways.all[way as usize].hash;
        if PROCESS.with(|process| process.is_rare(hash)) != Some(false) {
            self.flush();
        }
    }

    #[inline]
    fn give(&mut self, token: Token) {
        self.count_operation();
        if token.task != self.serial {
            return self.give_for_another(token);
        }
        self.give_back_own(token);
    }

    /// What this thread took is no longer held.
    #[inline]
    fn give_back_own(&mut self, token: Token) {
        let mut at = self.count;
        while at > 0 {
            at -= 1;
            if self.held[at].number == token.number {
                return self.give_back(at);
            }
        }
    }

    /// A lock is released that another thread took: its acquisition ends at that thread's next operation.
    #[cold]
    fn give_for_another(&mut self, token: Token) {
        PROCESS.with(|process| {
            let mut task = process.tasks;
            while !task.is_null() {
                let (serial, has_foreign) = unsafe { ((*task).serial, &(*task).has_foreign) };
                if serial == token.task && process.foreign.push((token.task, token.number)) {
                    has_foreign.store(true, Ordering::Relaxed);
                }
                task = unsafe { (*task).next };
            }
        });
        self.lose(process::UNSEEN_RELEASES);
    }

    /// Handles locks of this thread that others released.
    #[cold]
    fn settle(&mut self) {
        self.has_foreign.store(false, Ordering::Relaxed);
        while let Some(Some(number)) = PROCESS.with(|process| {
            let at = process.foreign.iter().position(|(serial, _)| *serial == self.serial)?;
            let last = process.foreign.len() - 1;
            process.foreign.swap(at, last);
            let (_, number) = process.foreign[last];
            process.foreign.truncate(last);
            Some(number)
        }) {
            if let Some(at) = self.held[..self.count].iter().position(|held| held.number == number) {
                self.give_back(at);
            }
        }
    }

    /// A lock is no longer held. What was done since it was taken is dropped, if nothing of it was new.
    #[inline]
    fn give_back(&mut self, at: usize) {
        let held = self.held[at];
        if at + 1 < self.count {
            self.move_up(at);
            return self.push_release(held.code);
        }
        self.count -= 1;
        self.way = held.before;
        let is_written = held.start < self.base;
        if held.start < self.fresh || held.start == NOWHERE || (is_written && held.offset == NOWHERE) {
            self.push_release(held.code);
            // (a thread that holds nothing writes so at once, since nobody knows when the process ends)
            return if self.count == 0 && is_written {
                self.flush()
            };
        }
        self.take_back(&held);
        self.add(process::REPEATS, 1);
    }

    /// Drops everything since a lock was taken, including its acquisition.
    #[inline]
    fn take_back(&mut self, held: &Held) {
        let count = self.here() - held.start;
        if held.start >= self.base {
            self.records.truncate((held.start - self.base) as usize);
        } else {
            self.cut(held);
        }
        self.add(process::REPEATS, count);
    }

    #[cold]
    fn cut(&mut self, held: &Held) {
        self.records.truncate(0);
        self.base = held.start;
        self.note_told();
        if !process::is_on() || self.pid != std::process::id() {
            return;
        }
        if !self.trace.as_mut().is_some_and(|trace| trace.cut(held.offset)) {
            self.end_early();
        }
    }

    /// What was waited for is no longer wanted.
    fn withdraw(&mut self, token: Token) {
        if self.count == 0 || self.held[self.count - 1].number != token.number {
            return;
        }
        self.count -= 1;
        let held = self.held[self.count];
        self.ways.all[self.way as usize].is_taken = false;
        self.way = held.before;
        self.take_back(&held);
        self.fresh = self.fresh.min(self.here());
    }

    fn push_release(&mut self, code: u32) {
        if !self.records.push(Record { code, place: None }) {
            self.end_early();
        }
    }

    /// A lock after which others were taken is no longer held. What the next one holds from then on was held when this one was taken, so
    /// that is where its stretch begins; what the later ones hold never was, so theirs have no beginning.
    #[cold]
    fn move_up(&mut self, at: usize) {
        let Held { start, offset, before: mut way, .. } = self.held[at];
        self.held.copy_within(at + 1..self.count, at);
        self.count -= 1;
        for later in at..self.count {
            let is_next = later == at;
            self.held[later].start = if is_next { start } else { NOWHERE };
            self.held[later].offset = if is_next { offset } else { NOWHERE };
            self.held[later].before = way;
            match self.ways.to(way, self.held[later].code) {
                Some(next) => way = next,
                None => return self.end_early(),
            }
        }
        self.way = way;
    }

    /// Something can't be kept or written: the thread's trace ends here.
    #[cold]
    fn end_early(&mut self) {
        self.is_over = true;
        self.records.truncate(0);
        self.count = 0;
        if !process::is_off() {
            process::turn_off();
        }
    }

    #[cold]
    fn give_up(&mut self) -> Token {
        self.end_early();
        LEFT_OUT
    }
}
