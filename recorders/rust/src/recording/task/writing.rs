//! The file of a thread.
use super::super::names::{Names, NAMES};
use super::super::process::{self, Trace};
use super::super::store::Text;
use super::{Held, Place, Record, Task, MODE_COUNT, NOWHERE};
use super::super::steps;
use std::fmt::Write;

/// The modes as the file has them.
pub(super) const MODES: [u32; MODE_COUNT as usize] = [0, 3, 1, 4];
const RELEASE: u32 = 2;
const MOST_NAME: usize = 64;

impl Task {
    /// Writes what isn't written yet.
    pub(super) fn flush(&mut self) {
        if self.is_over || !process::is_on() {
            return;
        }
        let is_forked = self.pid != std::process::id();
        if is_forked {
            self.begin_in_child();
        }
        if self.trace.is_none() {
            self.trace = Trace::new();
        }
        let Some((number, length)) = self.trace.as_ref().map(|trace| (trace.number, trace.length)) else {
            return self.end_early();
        };
        let mut lines = Lines { text: Text::new(), told: Text::new(), number };
        if length == 0 {
            lines.add_name(); // (which the library may need the program's allocator for)
            lines.add_member(self.own.member);
        }
        let mut begin = 0;
        let is_formed = NAMES.with(|names| {
            if length == 0 {
                lines.add_life(names, self.life);
            }
            begin = lines.text.bytes.len();
            if is_forked {
                self.told.iter().for_each(|&record| lines.add_record(names, record));
            }
            for at in 0..self.records.len() {
                self.note_offset(at, length + lines.text.bytes.len() as u64);
                lines.add_record(names, self.records[at]);
            }
        });
        if self.waits && self.records.len() > 0 {
            lines.add("W");
        }
        if lines.text.bytes.len() == begin && is_formed.is_some() {
            return;
        }
        let is_told = is_formed.is_some() && (lines.told.bytes.is_empty() || process::tell(&lines.told));
        if !is_told || !self.trace.as_mut().is_some_and(|trace| trace.add(&lines.text)) {
            return self.end_early();
        }
        self.base += self.records.len() as u64;
        self.records.truncate(0);
        self.note_told();
    }

    /// The number of a place in the order of steps. 0 if there is no memory for it.
    #[inline]
    pub fn number_of(&mut self, place: Place) -> u32 {
        let at = std::ptr::from_ref(place) as u64;
        self.places.get(at).unwrap_or_else(|| {
            let mut told = Text::new();
            let number = NAMES.with(|names| names.tell_place(&mut told, place)).unwrap_or(0);
            if !told.bytes.is_empty() {
                process::tell(&told);
            }
            self.places.set(at, number);
            number
        })
    }

    /// Writes the lock of a key that the order of steps has.
    #[cold]
    pub fn tell_key(&mut self, key: u32) {
        let mut told = Text::new();
        NAMES.with(|names| names.tell(&mut told, key));
        if !told.bytes.is_empty() {
            process::tell(&told);
        }
    }

    /// Notes where in the file a record begins, for the locks whose stretches begin with it.
    fn note_offset(&mut self, at: usize, offset: u64) {
        let record = self.base + at as u64;
        for held in self.held[..self.count].iter_mut().filter(|held| held.start == record) {
            held.offset = offset;
        }
    }

    /// Notes what is held by the file, for a process that may be forked.
    pub(super) fn note_told(&mut self) {
        self.told.truncate(0);
        for held in &self.held[..self.count] {
            self.told.push(Record { code: held.code, place: Some(held.place) });
        }
    }

    /// The file of a process that was forked begins with what was held.
    fn begin_in_child(&mut self) {
        self.pid = std::process::id();
        self.trace = None;
        self.life = 0; // (nobody there joins it)
        for held in &mut self.held[..self.count] {
            held.offset = NOWHERE;
        }
    }

    /// The thread got what it waited for: that is written if the wait was.
    pub(super) fn end_waiting(&mut self) {
        self.waits = false;
        if let Some(&Held { lock, code, place, .. }) = self.held[..self.count].last() {
            self.note(steps::TAKES, lock, Some(place), MODES[(code % MODE_COUNT) as usize]);
        }
        let is_told = self.count > 0 && self.held[self.count - 1].start < self.base && !self.is_over;
        if is_told && process::is_on() && self.pid == std::process::id() && !self.trace.as_mut().is_some_and(|trace| say(trace, "G")) {
            self.end_early();
        }
    }

    /// Writes what is left at the thread's end, unless many threads did nothing else.
    pub(super) fn finish(&mut self) {
        if self.is_over {
            return;
        }
        if self.trace.is_none() || self.pid != std::process::id() {
            let is_alike = !self.records.is_empty() && self.trace.is_none();
            self.add(process::ALIKE, u64::from(is_alike));
            return;
        }
        self.say_end();
    }

    /// Writes what is left and that it is the end, if the thread has a file.
    pub(super) fn say_end(&mut self) {
        if self.is_over || self.trace.is_none() || self.pid != std::process::id() {
            return;
        }
        self.flush();
        if let Some(trace) = &mut self.trace {
            say(trace, "E");
        }
    }
}

/// Writes a line that says something of a thread. False if that can't be done.
fn say(trace: &mut Trace, letter: &str) -> bool {
    let mut lines = Lines { text: Text::new(), told: Text::new(), number: trace.number };
    lines.add(letter);
    trace.add(&lines.text)
}

/// Lines for the file of a thread, which has this number, and those for the file of the process that they need.
struct Lines {
    text: Text,
    told: Text,
    number: u32,
}

impl Lines {
    fn add(&mut self, letter: &str) {
        let _ = writeln!(self.text, "{letter} {}", self.number);
    }

    /// Adds what the program calls the running thread, if it does. (`main` is what the library calls the first one.)
    fn add_name(&mut self) {
        let thread = std::thread::current();
        let Some(name) = thread.name().filter(|name| *name != "main") else { return };
        let _ = write!(self.text, "N {}\t", self.number);
        for byte in name.bytes().take(MOST_NAME) {
            self.text.add(&[if byte.is_ascii_control() { b'?' } else { byte }]);
        }
        self.text.add(b"\n");
    }

    /// Adds which one the thread is in the order of steps.
    fn add_member(&mut self, member: u32) {
        let _ = writeln!(self.text, "J {} {member}", self.number);
    }

    /// Adds what a thread that may be joined is itself.
    fn add_life(&mut self, names: &mut Names, life: u32) {
        if life != 0 {
            names.tell(&mut self.told, life);
            let _ = writeln!(self.text, "T {} {life}", self.number);
        }
    }

    fn add_record(&mut self, names: &mut Names, record: Record) {
        let key = record.code / MODE_COUNT;
        names.tell(&mut self.told, key);
        let (letter, mode, place) = match record.place {
            Some(place) => ('A', MODES[(record.code % MODE_COUNT) as usize], names.tell_place(&mut self.told, place)),
            None => ('R', RELEASE, 0),
        };
        let _ = writeln!(self.text, "{letter} {} {} {place}", self.number, 8 * key + mode);
    }
}
