//! What the recorder keeps things in. Nothing here uses the program's own allocator, which may be one that takes locks.
use std::alloc::{GlobalAlloc, Layout, System};
use std::cell::UnsafeCell;
use std::ops::{Deref, DerefMut};
use std::sync::atomic::{AtomicBool, Ordering};
use std::time::Duration;

const FIRST_ROOM: usize = 32;

/// A growing list in memory from the system.
pub struct List<T: Copy> {
    start: *mut T,
    count: usize,
    room: usize,
}

unsafe impl<T: Copy + Send> Send for List<T> {}

impl<T: Copy> List<T> {
    pub const fn new() -> List<T> {
        List { start: std::ptr::null_mut(), count: 0, room: 0 }
    }

    /// Adds something. False if there is no memory for it.
    pub fn push(&mut self, value: T) -> bool {
        if self.count == self.room && !self.grow() {
            return false;
        }
        unsafe { self.start.add(self.count).write(value) };
        self.count += 1;
        true
    }

    fn grow(&mut self) -> bool {
        let room = if self.room == 0 { FIRST_ROOM } else { 2 * self.room };
        let Ok(layout) = Layout::array::<T>(room) else { return false };
        let start = unsafe {
            if self.room == 0 {
                System.alloc(layout)
            } else {
                System.realloc(self.start.cast(), Layout::array::<T>(self.room).unwrap_unchecked(), layout.size())
            }
        };
        if !start.is_null() {
            self.start = start.cast();
            self.room = room;
        }
        !start.is_null()
    }

    pub fn truncate(&mut self, count: usize) {
        self.count = self.count.min(count);
    }
}

impl<T: Copy> Drop for List<T> {
    fn drop(&mut self) {
        if self.room > 0 {
            unsafe { System.dealloc(self.start.cast(), Layout::array::<T>(self.room).unwrap_unchecked()) };
        }
    }
}

impl<T: Copy> Deref for List<T> {
    type Target = [T];
    fn deref(&self) -> &[T] {
        if self.count == 0 {
            return &[];
        }
        unsafe { std::slice::from_raw_parts(self.start, self.count) }
    }
}

impl<T: Copy> DerefMut for List<T> {
    fn deref_mut(&mut self) -> &mut [T] {
        if self.count == 0 {
            return &mut [];
        }
        unsafe { std::slice::from_raw_parts_mut(self.start, self.count) }
    }
}

/// Text. If there wasn't enough memory, its end is missing, and `is_whole` says so.
pub struct Text {
    pub bytes: List<u8>,
    pub is_whole: bool,
}

impl Text {
    pub const fn new() -> Text {
        Text { bytes: List::new(), is_whole: true }
    }

    pub fn add(&mut self, bytes: &[u8]) {
        for &byte in bytes {
            self.is_whole = self.is_whole && self.bytes.push(byte);
        }
    }
}

impl std::fmt::Write for Text {
    fn write_str(&mut self, text: &str) -> std::fmt::Result {
        self.add(text.as_bytes());
        Ok(())
    }
}

/// A number for each key that isn't 0: a table with open addressing, at most half full.
pub struct Table {
    slots: List<(u64, u32)>,
    count: usize,
}

impl Table {
    pub const fn new() -> Table {
        Table { slots: List::new(), count: 0 }
    }

    pub fn get(&self, key: u64) -> Option<u32> {
        if self.slots.is_empty() {
            return None;
        }
        let (found, value) = self.slots[self.place_of(key)];
        (found == key).then_some(value)
    }

    /// Puts a number under a key. False if there is no memory for it.
    pub fn set(&mut self, key: u64, value: u32) -> bool {
        if 2 * (self.count + 1) > self.slots.len() && !self.grow() {
            return false;
        }
        let place = self.place_of(key);
        self.count += usize::from(self.slots[place].0 == 0);
        self.slots[place] = (key, value);
        true
    }

    /// Where a key is, or would be.
    fn place_of(&self, key: u64) -> usize {
        let most = self.slots.len() - 1;
        let mut place = mixed(key) as usize & most;
        while self.slots[place].0 != 0 && self.slots[place].0 != key {
            place = (place + 1) & most;
        }
        place
    }

    fn grow(&mut self) -> bool {
        let mut larger = Table::new();
        for _ in 0..(2 * self.slots.len()).max(FIRST_ROOM) {
            if !larger.slots.push((0, 0)) {
                return false;
            }
        }
        for &(key, value) in self.slots.iter().filter(|(key, _)| *key != 0) {
            larger.set(key, value);
        }
        *self = larger;
        true
    }
}

/// A number whose bits all depend on all bits of another one.
pub fn mixed(number: u64) -> u64 {
    let number = (number ^ (number >> 32)).wrapping_mul(0x9E37_79B9_7F4A_7C15);
    (number ^ (number >> 29)).wrapping_mul(0xBF58_476D_1CE4_E5B9) ^ (number >> 32)
}

/// What several threads use in turn. A thread waits for a while, not for ever: in a forked process, the thread that had it may not
/// exist.
pub struct Shared<T> {
    is_taken: AtomicBool,
    value: UnsafeCell<T>,
}

unsafe impl<T: Send> Sync for Shared<T> {}

const SPINS: u32 = 64;
const FIRST_SLEEP: u32 = SPINS + 1_000;
const MOST_TURNS: u32 = FIRST_SLEEP + 5_000;
const A_SLEEP: Duration = Duration::from_millis(1);

impl<T> Shared<T> {
    pub const fn new(value: T) -> Shared<T> {
        Shared { is_taken: AtomicBool::new(false), value: UnsafeCell::new(value) }
    }

    /// Does something with the value. None if it wasn't available.
    #[inline]
    pub fn with<R>(&self, work: impl FnOnce(&mut T) -> R) -> Option<R> {
        if self.is_taken.swap(true, Ordering::Acquire) && !self.waited() {
            return None;
        }
        let result = work(unsafe { &mut *self.value.get() });
        self.is_taken.store(false, Ordering::Release);
        Some(result)
    }

    #[cold]
    fn waited(&self) -> bool {
        for turn in 0..MOST_TURNS {
            if !self.is_taken.load(Ordering::Relaxed) && !self.is_taken.swap(true, Ordering::Acquire) {
                return true;
            }
            match turn {
                0..SPINS => std::hint::spin_loop(),
                SPINS..FIRST_SLEEP => std::thread::yield_now(),
                _ => std::thread::sleep(A_SLEEP),
            }
        }
        false
    }

    pub fn is_taken(&self) -> bool {
        self.is_taken.load(Ordering::Relaxed)
    }

    /// Makes it free, in a forked process, which has one thread.
    pub fn free(&self) {
        self.is_taken.store(false, Ordering::Release);
    }
}
