//! The order in which the threads of this process take their steps, in the form of recorders/log.md ("Steps"): a file that is mapped
//! whole, of which each thread has chunks. The time is a count of all steps. A forked process notes none.
use super::names::Mark;
use super::process;
use super::store::Shared;
use super::task::{Place, Task};
use std::fs::File;
use std::io::Write;
use std::os::fd::AsRawFd;
use std::sync::atomic::{AtomicBool, AtomicU32, AtomicU64, Ordering};

pub const NAMES: u64 = 1;
pub const TAKES: u64 = 2;
pub const RELEASES: u64 = 3;
pub const GIVES: u64 = 4;
pub const GETS: u64 = 5;
pub const BEGINS: u64 = 6;
pub const JOINS: u64 = 7;
const PASSES: u64 = 9;

const VERB: u64 = 15;
const NUMBER: u64 = (1 << 36) - (1 << 8);

const HISTORY_MEGABYTES: usize = 64;
const MEGABYTE: usize = 1 << 20;
const WORD: usize = 8;
/// The words of a chunk, its head among them, and how many chunks the file grows by.
const CHUNK: usize = 512;
const HEAD: usize = 2;
const GROWTH: usize = 16;
static EMPTY: [u8; GROWTH * CHUNK * WORD] = [0; GROWTH * CHUNK * WORD];

const READ_AND_WRITE: i32 = 1 | 2;
const SHARED: i32 = 1;

extern "C" {
    fn mmap(at: *mut u8, size: usize, protection: i32, flags: i32, file: i32, offset: i64) -> *mut u8;
    fn pthread_atfork(before: Option<extern "C" fn()>, parent: Option<extern "C" fn()>, child: Option<extern "C" fn()>) -> i32;
}

static IS_ON: AtomicBool = AtomicBool::new(false);
static CLOCK: AtomicU64 = AtomicU64::new(0);
static MEMBERS: AtomicU32 = AtomicU32::new(0);
static LOCKS: AtomicU32 = AtomicU32::new(0);
static MESSAGES: AtomicU32 = AtomicU32::new(0);

/// The file: where it is mapped, and how many of its words there may be, are there, and are given out.
struct Mapped {
    start: *mut u64,
    room: usize,
    there: usize,
    used: usize,
}

unsafe impl Send for Mapped {}

static MAPPED: Shared<Mapped> = Shared::new(Mapped { start: std::ptr::null_mut(), room: 0, there: 0, used: 1 });

/// Which one a thread is in the order of steps, and where its next step goes; and how many of its steps are left in a chunk. What it has just taken isn't
/// noted before its next step: it has it by then.
pub struct Own {
    pub member: u32,
    unnoted: u64,
    next: *mut u64,
    left: usize,
}

#[inline]
pub fn is_on() -> bool {
    IS_ON.load(Ordering::Relaxed)
}

/// The recording of a process begins: so does the order of its steps, unless it isn't wanted.
pub fn begin() {
    let asked = std::env::var("LOCKDEP_HISTORY").unwrap_or_default();
    let megabytes = if asked.is_empty() { HISTORY_MEGABYTES } else { asked.parse().unwrap_or(0) };
    let is_wanted = MAPPED.with(|mapped| mapped.room = megabytes * MEGABYTE / WORD).is_some() && megabytes > 0;
    IS_ON.store(is_wanted && unsafe { pthread_atfork(None, None, Some(stop)) } == 0, Ordering::Relaxed);
}

/// No step is noted any more.
extern "C" fn stop() {
    IS_ON.store(false, Ordering::Relaxed);
}

impl Mapped {
    /// Room for a chunk. None if there is none in the file, or on the disk.
    fn chunk(&mut self) -> Option<*mut u64> {
        let at = self.used;
        if at + CHUNK > self.room || (at + CHUNK > self.there && !self.grow()) {
            return None;
        }
        self.used = at + CHUNK;
        Some(unsafe { self.start.add(at) })
    }

    fn grow(&mut self) -> bool {
        let Some(mut file) = process::further("-history") else { return false };
        if self.start.is_null() && (file.write_all(&EMPTY[..WORD]).is_err() || !self.map(&file)) {
            return false;
        }
        self.there = self.there.max(1) + GROWTH * CHUNK;
        file.write_all(&EMPTY).is_ok()
    }

    fn map(&mut self, file: &File) -> bool {
        let start = unsafe { mmap(std::ptr::null_mut(), self.room * WORD, READ_AND_WRITE, SHARED, file.as_raw_fd(), 0) };
        let is_mapped = start as isize != -1;
        if is_mapped {
            self.start = start.cast();
        }
        is_mapped
    }

    /// The first step that there is no room for ends the history of all threads.
    fn end(&mut self) {
        if !self.start.is_null() && is_on() {
            unsafe { self.start.write_volatile(CLOCK.fetch_add(1, Ordering::Relaxed) + 1) };
        }
        stop();
    }
}

impl Own {
    pub fn new() -> Own {
        Own { member: MEMBERS.fetch_add(1, Ordering::Relaxed) + 1, unnoted: 0, next: std::ptr::null_mut(), left: 0 }
    }

    /// A step of the thread. To take a lock and to release it at once is one.
    #[inline]
    fn note(&mut self, word: u64) {
        let taken = std::mem::replace(&mut self.unnoted, 0);
        if taken != 0 && word & VERB == RELEASES && taken & NUMBER == word & NUMBER {
            return self.put(taken + PASSES - TAKES);
        }
        if taken != 0 {
            self.put(taken);
        }
        if word & VERB == TAKES {
            self.unnoted = word;
        } else {
            self.put(word);
        }
    }

    /// Puts a step where the next one goes.
    #[inline]
    fn put(&mut self, word: u64) {
        if self.left == 0 && !self.begin_chunk() {
            return;
        }
        let time = CLOCK.fetch_add(1, Ordering::SeqCst) + 1;
        unsafe {
            self.next.write_volatile(time);
            self.next.add(1).write_volatile(word);
            self.next = self.next.add(2);
        }
        self.left -= 1;
    }

    #[cold]
    fn begin_chunk(&mut self) -> bool {
        let member = u64::from(self.member);
        let chunk = MAPPED.with(|mapped| {
            let chunk = mapped.chunk();
            if chunk.is_none() {
                mapped.end();
            }
            chunk
        });
        let Some(chunk) = chunk.flatten() else { return false };
        unsafe {
            chunk.write_volatile(member);
            chunk.add(1).write_volatile(((CHUNK - HEAD) * WORD) as u64);
            self.next = chunk.add(HEAD);
        }
        self.left = (CHUNK - HEAD) / 2;
        true
    }
}

impl Task {
    /// A step of the thread.
    #[inline]
    pub fn note(&mut self, verb: u64, number: u32, place: Option<Place>, mode: u32) {
        if is_on() && number != 0 {
            let place = place.map_or(0, |place| self.number_of(place));
            self.own.note(verb | u64::from(mode) << 4 | u64::from(number) << 8 | u64::from(place) << 36);
        }
    }

    /// The number of a lock; 0 if nothing is noted of it.
    #[inline]
    pub fn number_of_lock(&mut self, mark: &Mark, key: u32) -> u32 {
        if !is_on() || key == 0 {
            return 0;
        }
        let (number, is_new) = mark.in_steps(key, || LOCKS.fetch_add(1, Ordering::Relaxed) + 1);
        if is_new && number != 0 {
            self.tell_key(key);
            self.own.note(NAMES | u64::from(number) << 8 | u64::from(key) << 36);
        }
        number
    }

    /// The thread gives a message to who gets it. 0 if nothing is noted.
    pub fn give_message(&mut self, place: Place) -> u32 {
        let message = if is_on() { MESSAGES.fetch_add(1, Ordering::Relaxed) + 1 } else { 0 };
        self.note(GIVES, message, Some(place), 0);
        message
    }
}
