//! Classes and locks. A class is where locks are made; some locks of a class are told apart by a number.
use super::process;
use super::store::{mixed, List, Shared, Table, Text};
use std::fmt::Write;
use std::panic::Location;
use std::sync::atomic::{AtomicU32, Ordering};

/// What is noted about a lock, in the lock. It may be moved with the lock, and is dropped with it. `step` is its number in the order of steps, and `told`
/// the key that it has there.
pub struct Mark {
    place: &'static Location<'static>,
    type_name: fn() -> &'static str,
    kind: Kind,
    key: AtomicU32,
    step: AtomicU32,
    told: AtomicU32,
}

/// What a lock is: one that is made by a call, or by `Default`, or a thread, which is one to who joins it.
#[derive(Clone, Copy, PartialEq)]
enum Kind {
    Made,
    Default,
    Thread,
}

/// A bit of `Mark::key`: this lock keeps its key. Without it, a lock that isn't told apart may be, once it is taken under another.
const IS_SETTLED: u32 = 1 << 31;

/// How many locks of a class are told apart, and how many of these if they are taken under no other.
const MOST_APART: u32 = 32;
const MOST_APART_ALONE: u32 = 8;

/// The part of threads' classes that isn't the place.
const THREAD: &str = "thread:";

impl Mark {
    /// A lock that is made by a call.
    pub const fn new(place: &'static Location<'static>, type_name: fn() -> &'static str) -> Mark {
        Mark::of(place, type_name, Kind::Made)
    }

    /// A lock that is made by `Default`: all fields of a structure that derives it have one place.
    pub const fn of_default(place: &'static Location<'static>, type_name: fn() -> &'static str) -> Mark {
        Mark::of(place, type_name, Kind::Default)
    }

    /// A thread that is started.
    pub const fn of_thread(place: &'static Location<'static>) -> Mark {
        Mark::of(place, || "", Kind::Thread)
    }

    const fn of(place: &'static Location<'static>, type_name: fn() -> &'static str, kind: Kind) -> Mark {
        Mark { place, type_name, kind, key: AtomicU32::new(0), step: AtomicU32::new(0), told: AtomicU32::new(0) }
    }

    /// Its number in the order of steps, and whether it is to be told which key that has. A thread is none of the locks there.
    #[inline]
    pub fn in_steps(&self, key: u32, new: impl FnOnce() -> u32) -> (u32, bool) {
        if self.told.load(Ordering::Acquire) == key {
            return (self.step.load(Ordering::Relaxed), false);
        }
        if self.kind != Kind::Thread && self.step.load(Ordering::Relaxed) == 0 {
            let _ = self.step.compare_exchange(0, new(), Ordering::Relaxed, Ordering::Relaxed);
        }
        self.told.store(key, Ordering::Release);
        (self.step.load(Ordering::Relaxed), true)
    }

    /// A number that is the same for all locks of its class.
    pub fn class(&self) -> u64 {
        content_of(self.place, self.part())
    }

    /// The number of the lock, or of all those of its class that aren't told apart. 0 if there is no memory for it.
    #[inline]
    pub fn key(&self, is_nested: bool) -> u32 {
        let key = self.key.load(Ordering::Relaxed);
        if key & IS_SETTLED != 0 || (key != 0 && !is_nested) {
            key & !IS_SETTLED
        } else {
            self.find_key(is_nested)
        }
    }

    #[cold]
    fn find_key(&self, is_nested: bool) -> u32 {
        if !process::is_on() {
            return 0;
        }
        let is_nested = is_nested || self.kind == Kind::Thread; // (a thread is joined with locks held)
        let found = NAMES.with(|names| {
            let key = self.key.load(Ordering::Relaxed);
            if key & IS_SETTLED != 0 || (key != 0 && !is_nested) {
                return Some(key & !IS_SETTLED); // (another thread was faster)
            }
            let class = names.class_of(self)?;
            let key = names.key_in(class, is_nested);
            let is_settled = key != names.classes[class].rest || is_nested;
            self.key.store(if is_settled { key | IS_SETTLED } else { key }, Ordering::Relaxed);
            Some(key)
        });
        found.flatten().unwrap_or(0)
    }

    /// The part of a class's name that isn't its place: the type, if locks of one place may have different types.
    fn part(&self) -> &'static str {
        match self.kind {
            Kind::Thread => THREAD,
            Kind::Made if !is_of_library(self.place.file()) => "",
            _ => (self.type_name)(),
        }
    }
}

/// Whether a file is one of Rust's own libraries, for example if one of their functions calls `Mutex::new`.
fn is_of_library(file: &str) -> bool {
    file.starts_with("/rustc/") || file.contains("/rustlib/src/rust/library/")
}

#[derive(Clone, Copy)]
struct Class {
    place: &'static Location<'static>,
    part: &'static str,
    rest: u32,
    ordinals: u32,
    is_told: bool,
}

#[derive(Clone, Copy)]
struct Key {
    class: u32,
    ordinal: u32,
    is_told: bool,
}

/// The classes and locks of this process, and the places that its file has. Keys are counted from 1. What is told is in the file, or about to be.
pub struct Names {
    classes: List<Class>,
    by_content: Table,
    keys: List<Key>,
    places: Table,
    place_count: u32,
}

pub static NAMES: Shared<Names> =
    Shared::new(Names { classes: List::new(), by_content: Table::new(), keys: List::new(), places: Table::new(), place_count: 0 });

impl Names {
    /// The class of a lock. (Several places in memory may say the same.)
    fn class_of(&mut self, mark: &Mark) -> Option<usize> {
        let part = mark.part();
        let mut content = content_of(mark.place, part);
        while let Some(class) = self.by_content.get(content) {
            let found = self.classes[class as usize];
            if found.place == mark.place && found.part == part {
                return Some(class as usize);
            }
            content = content.wrapping_add(1).max(1);
        }
        let class = self.classes.len();
        let rest = self.add_key(class, 0)?;
        let new = Class { place: mark.place, part, rest, ordinals: 0, is_told: false };
        (self.classes.push(new) && self.by_content.set(content, class as u32)).then_some(class)
    }

    /// A number for a lock of a class that has none, or the number of those that aren't told apart.
    fn key_in(&mut self, class: usize, is_nested: bool) -> u32 {
        let Class { rest, ordinals, .. } = self.classes[class];
        if ordinals >= if is_nested { MOST_APART } else { MOST_APART_ALONE } {
            return rest;
        }
        match self.add_key(class, ordinals + 1) {
            Some(key) => {
                self.classes[class].ordinals += 1;
                key
            }
            None => rest,
        }
    }

    fn add_key(&mut self, class: usize, ordinal: u32) -> Option<u32> {
        self.keys.push(Key { class: class as u32, ordinal, is_told: false }).then_some(self.keys.len() as u32)
    }

    /// Adds a lock and its class to what is told, if they weren't yet.
    pub fn tell(&mut self, told: &mut Text, key: u32) {
        let Key { class, ordinal, is_told } = self.keys[key as usize - 1];
        if is_told {
            return;
        }
        self.keys[key as usize - 1].is_told = true;
        let known = self.classes[class as usize];
        self.classes[class as usize].is_told = true;
        if !known.is_told {
            add_class(told, class + 1, &known);
        }
        let _ = writeln!(told, "K {key} {} {ordinal}", class + 1);
    }

    /// The number of a place, which is told if it wasn't yet. 0 if there is no memory for it.
    pub fn tell_place(&mut self, told: &mut Text, place: &'static Location<'static>) -> u32 {
        let at = std::ptr::from_ref(place) as u64; // (the same place may have two numbers)
        if let Some(number) = self.places.get(at) {
            return number;
        }
        let number = self.place_count + 1;
        if !self.places.set(at, number) {
            return 0;
        }
        self.place_count = number;
        let _ = write!(told, "P {number}\t");
        add_place(told, place);
        told.add(b"\n");
        number
    }

    /// The file of a forked process has nothing yet.
    pub fn forget_told(&mut self) {
        self.keys.iter_mut().for_each(|key| key.is_told = false);
        self.classes.iter_mut().for_each(|class| class.is_told = false);
        self.places = Table::new();
        self.place_count = 0;
    }
}

fn content_of(place: &Location<'_>, part: &str) -> u64 {
    let number = (u64::from(place.line()) << 32) | u64::from(place.column());
    let hash = mixed(number ^ mixed(u64::from(hash_of(place.file().as_bytes())) << 32 | u64::from(hash_of(part.as_bytes()))));
    hash.max(1)
}

/// The hash FNV-1a.
fn hash_of(bytes: &[u8]) -> u32 {
    bytes.iter().fold(0x811C_9DC5, |hash, &byte| (hash ^ u32::from(byte)).wrapping_mul(0x0100_0193))
}

/// Adds a class's line. What it is called in traces is found out when these are made (tool/lockdep/finish/class_names.py).
fn add_class(told: &mut Text, number: u32, class: &Class) {
    let _ = write!(told, "C {number}\t");
    add_place(told, class.place);
    let _ = write!(told, ":{}\t", class.place.column());
    add_place(told, class.place);
    if class.part == THREAD {
        told.add(b"\tstarted\n");
    } else {
        let _ = writeln!(told, "\tmade in\t{}", class.part);
    }
}

/// Adds a place, `FILE:LINE`.
fn add_place(text: &mut Text, place: &Location<'_>) {
    for byte in place.file().bytes() {
        text.add(&[if byte < b' ' { b'?' } else { byte }]);
    }
    let _ = write!(text, ":{}", place.line());
}
