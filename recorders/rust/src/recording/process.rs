//! This process, and its files, in the form of recorders/log.md. They are in FOLDER/raw, where FOLDER is what LOCKDEP_TRACES says, or
//! `lockdep-traces`: TIME-PID has the process, its classes, locks and places, TIME-PID-counts what was counted, and TIME-PID-NUMBER the records
//! of a thread.
//!
//! A file is opened for each write, so that the program has no open file that it doesn't know about.
use super::names::NAMES;
use super::steps;
use super::store::{List, Shared, Table, Text};
use super::task::{end_with_thread, Task};
use std::ffi::OsStr;
use std::fmt::Write;
use std::fs::{File, OpenOptions, Permissions};
use std::io::{ErrorKind, Write as _};
use std::os::unix::ffi::OsStrExt;
use std::os::unix::fs::{FileExt, PermissionsExt};
use std::path::Path;
use std::sync::atomic::{AtomicU32, AtomicU8, Ordering};
use std::time::{SystemTime, UNIX_EPOCH};

/// What is counted.
pub const OPERATIONS: usize = 0;
pub const REPEATS: usize = 1;
pub const UNSEEN_RELEASES: usize = 2;
pub const BEYOND_HELD: usize = 3;
pub const FULL_TRACES: usize = 4;
pub const REENTERED: usize = 5;
pub const RETRIED_TRIES: usize = 6;
pub const UNWRITTEN: usize = 7;
pub const ALIKE: usize = 8;
pub const COUNTS: usize = 9;
const COUNT_NAMES: [&str; COUNTS] = [
    "operations",
    "repeats",
    "unseen-releases",
    "beyond-held",
    "full-traces",
    "reentered",
    "retried-tries",
    "unwritten",
    "threads-alike",
];

/// How many threads of a process write what others have already done in the same way.
const MOST_ALIKE: u32 = 32;

const NEW: u8 = 0;
const BEGINNING: u8 = 1;
const ON: u8 = 2;
const OFF: u8 = 3;
static STATE: AtomicU8 = AtomicU8::new(NEW);
static PID: AtomicU32 = AtomicU32::new(0);

/// What the threads of a process share. `common` says how many threads wrote each way; `foreign` has releases by other threads, each
/// the thread that took the lock and which of its acquisitions it was.
pub struct Process {
    folder: Text,
    prefix: Text,
    program: Text,
    began: u128,
    has_file: bool,
    pub tasks: *mut Task,
    pub foreign: List<(u32, u32)>,
    counts: [u64; COUNTS],
    serials: u32,
    files: u32,
    common: Table,
}

unsafe impl Send for Process {}

pub static PROCESS: Shared<Process> = Shared::new(Process {
    folder: Text::new(),
    prefix: Text::new(),
    program: Text::new(),
    began: 0,
    has_file: false,
    tasks: std::ptr::null_mut(),
    foreign: List::new(),
    counts: [0; COUNTS],
    serials: 0,
    files: 0,
    common: Table::new(),
});

#[cfg(target_os = "linux")]
#[used]
#[link_section = ".init_array"]
static AT_START: extern "C" fn() = at_start;

#[cfg(target_os = "linux")]
#[used]
#[link_section = ".fini_array"]
static AT_END: extern "C" fn() = at_end;

/// The text by which `lockdep run` recognises a program that has this recorder.
#[used]
static SIGN: &[u8] = b"lockdep_record for LOCKDEP_TRACES";

/// Runs before `main`, when no lock is held, the program's allocator can be used, and no thread-local value is made.
extern "C" fn at_start() {
    if is_on() {
        end_with_thread();
    }
}

extern "C" fn at_end() {
    if STATE.load(Ordering::Relaxed) == ON && is_on() {
        put_counts();
    }
}

/// Whether this process is recorded. The first call starts that; one in a forked process starts it there.
#[cold]
pub fn is_on() -> bool {
    match STATE.load(Ordering::Acquire) {
        ON if PID.load(Ordering::Relaxed) == std::process::id() => true,
        ON => begin_in_child(),
        NEW if STATE.compare_exchange(NEW, BEGINNING, Ordering::Acquire, Ordering::Relaxed).is_ok() => {
            let is_begun = PROCESS.with(Process::begin).unwrap_or(false);
            PID.store(std::process::id(), Ordering::Relaxed);
            STATE.store(if is_begun { ON } else { OFF }, Ordering::Release);
            if is_begun && std::env::var_os("LOCKDEP_TRACES").is_some() {
                put_counts(); // (whoever named the folder waits for what is in it)
            }
            is_begun
        }
        _ => false,
    }
}

/// Goes on in a forked process. If another thread was just using the shared data, that may be in an inconsistent state, so nothing is
/// recorded, and that is counted.
fn begin_in_child() -> bool {
    PID.store(std::process::id(), Ordering::Relaxed);
    let was_taken = PROCESS.is_taken() || NAMES.is_taken();
    PROCESS.free();
    TURN.free();
    if !was_taken {
        NAMES.with(|names| names.forget_told());
    }
    if was_taken {
        STATE.store(OFF, Ordering::Relaxed);
    }
    let is_begun = PROCESS.with(|process| process.begin_anew(u64::from(was_taken))).unwrap_or(false);
    if is_begun {
        put_counts();
    }
    is_begun && !was_taken
}

/// Ends the recording of this process: something couldn't be written or kept.
pub fn turn_off() {
    PROCESS.with(|process| process.counts[UNWRITTEN] = 1);
    put_counts();
    STATE.store(OFF, Ordering::Relaxed);
}

pub fn is_off() -> bool {
    STATE.load(Ordering::Relaxed) != ON
}

fn path_of(text: &Text) -> &Path {
    Path::new(OsStr::from_bytes(&text.bytes))
}

impl Process {
    /// Finds out where to write.
    fn begin(&mut self) -> bool {
        let folder = std::env::var_os("LOCKDEP_TRACES");
        if folder.as_ref().is_some_and(|folder| folder.is_empty()) {
            return false;
        }
        // Below the recorder of pthreads no folder was asked for: it names this program as one that isn't recorded.
        if folder.is_none() && std::env::var_os("LOCKDEP_RECORD").is_some() {
            return false;
        }
        let folder = folder.unwrap_or_else(|| "lockdep-traces".into());
        let Ok(folder) = std::path::absolute(folder) else { return false };
        self.folder.add(folder.as_os_str().as_bytes());
        steps::begin();
        if let Ok(program) = std::env::current_exe() {
            self.program.add(program.as_os_str().as_bytes());
        }
        self.begin_files()
    }

    /// Names the files of this process.
    fn begin_files(&mut self) -> bool {
        self.began = SystemTime::now().duration_since(UNIX_EPOCH).map_or(0, |time| time.as_nanos());
        self.has_file = false;
        self.prefix.bytes.truncate(0);
        self.prefix.add(&self.folder.bytes);
        let _ = write!(self.prefix, "/raw/{:019}-{}", self.began, std::process::id());
        self.prefix.is_whole && self.folder.is_whole
    }

    /// Starts in a forked process, which has only one thread, and that one may not be one of ours.
    fn begin_anew(&mut self, unwritten: u64) -> bool {
        self.counts = [0; COUNTS];
        self.counts[UNWRITTEN] = unwritten;
        self.files = 0;
        self.foreign.truncate(0);
        self.tasks = super::task::only_task();
        self.begin_files()
    }

    fn path(&self, rest: std::fmt::Arguments) -> Text {
        let mut path = copy_of(&self.prefix);
        let _ = path.write_fmt(rest);
        path
    }

    /// What was counted so far, which has the same length each time.
    fn counts_as_text(&self) -> Text {
        let mut counts = self.counts;
        let mut task = self.tasks;
        while !task.is_null() {
            // (only a thread's counts may be read here)
            let counted = unsafe { &(*task).counts };
            for (sum, count) in counts.iter_mut().zip(counted) {
                *sum += count.load(Ordering::Relaxed);
            }
            task = unsafe { (*task).next };
        }
        let mut text = Text::new();
        for (name, count) in COUNT_NAMES.iter().zip(counts) {
            let _ = writeln!(text, "S {name} {count:020}");
        }
        text
    }

    /// The first lines of the file: the process, and its program.
    fn head(&self) -> Text {
        let mut text = Text::new();
        let _ = write!(text, "process {} {}\nF ", std::process::id(), self.began);
        for &byte in self.program.bytes.iter() {
            text.add(&[if byte == b'\n' { b'?' } else { byte }]);
        }
        text.add(b"\n");
        text
    }

    /// A number for a thread.
    pub fn next_serial(&mut self) -> u32 {
        self.serials = self.serials.wrapping_add(1).max(1);
        self.serials
    }

    /// Takes over the counts of a thread that has ended.
    pub fn add_counts(&mut self, task: &Task) {
        for (sum, count) in self.counts.iter_mut().zip(&task.counts) {
            *sum += count.load(Ordering::Relaxed);
        }
    }

    /// Whether too few threads have written this way for it not to be written again.
    pub fn is_rare(&mut self, way: u64) -> bool {
        let count = self.common.get(way).unwrap_or(0);
        count < MOST_ALIKE && self.common.set(way, count + 1)
    }
}

// ---- Files. The shared data is unlocked meanwhile, since a disk may be slow.

fn copy_of(text: &Text) -> Text {
    let mut copy = Text::new();
    copy.add(&text.bytes);
    copy.is_whole = text.is_whole;
    copy
}

/// Makes the folder, if the program wasn't started by a recorder, which makes it.
fn make_folder() {
    let Some((folder, program)) = PROCESS.with(|process| (copy_of(&process.folder), copy_of(&process.program))) else {
        return;
    };
    let mut path = folder;
    path.add(b"/raw");
    if std::fs::create_dir_all(path_of(&path)).is_err() {
        return;
    }
    path.add(b"/settings");
    if let Ok(mut file) = OpenOptions::new().write(true).create_new(true).open(path_of(&path)) {
        let mut text = Text::new();
        text.add(b"version 2\nframes 3\nprogram ");
        text.add(&program.bytes);
        text.add(b"\nrecorder rust\n");
        let _ = file.write_all(&text.bytes);
    }
}

/// Makes a file. Any user that the program switches to may write it.
fn make(path: &Text) -> Option<File> {
    let mut options = OpenOptions::new();
    options.write(true).create_new(true);
    let mut opened = options.open(path_of(path));
    if opened.as_ref().is_err_and(|error| error.kind() == ErrorKind::NotFound) {
        make_folder();
        opened = options.open(path_of(path));
    }
    let file = opened.ok()?;
    let _ = file.set_permissions(Permissions::from_mode(0o666));
    Some(file)
}

fn open(path: &Text) -> Option<File> {
    OpenOptions::new().write(true).open(path_of(path)).ok()
}

/// Whose turn it is to write what all threads share, so that no older counts come after newer ones, and the file of the process is begun once.
static TURN: Shared<()> = Shared::new(());

/// Writes what was counted so far.
pub fn put_counts() {
    TURN.with(|()| {
        begin_file();
        let written = PROCESS.with(|process| (process.path(format_args!("-counts")), process.counts_as_text()));
        if let Some((path, text)) = written {
            if let Some(file) = open(&path).or_else(|| make(&path)) {
                let _ = file.write_all_at(&text.bytes, 0);
            }
        }
    });
}

/// Adds lines to the file of the process. False if that can't be done.
pub fn tell(lines: &Text) -> bool {
    if PROCESS.with(|process| process.has_file) == Some(false) {
        TURN.with(|()| begin_file());
    }
    let path = PROCESS.with(|process| process.path(format_args!("")));
    lines.is_whole && path.is_some_and(|path| append(&path, lines))
}

/// Begins the file, unless that was done. (It is the thread's turn.)
fn begin_file() {
    let first = PROCESS.with(|process| (!process.has_file).then(|| (process.path(format_args!("")), process.head())));
    if let Some((path, head)) = first.flatten() {
        drop(make(&path));
        append(&path, &head);
        PROCESS.with(|process| process.has_file = true);
    }
}

/// Adds lines to a file that several threads write.
fn append(path: &Text, lines: &Text) -> bool {
    OpenOptions::new().append(true).open(path_of(path)).is_ok_and(|mut file| file.write_all(&lines.bytes).is_ok())
}

/// A further file of the process, which may be mapped, and to whose end more is written. It is made if it isn't there.
pub fn further(rest: &str) -> Option<File> {
    let path = PROCESS.with(|process| process.path(format_args!("{rest}")))?;
    drop(make(&path));
    OpenOptions::new().read(true).append(true).open(path_of(&path)).ok()
}

/// The file of a thread.
pub struct Trace {
    path: Text,
    pub number: u32,
    pub length: u64,
}

impl Trace {
    /// A file that is there when it is first written.
    pub fn new() -> Option<Trace> {
        PROCESS.with(|process| {
            process.files += 1;
            Trace { path: process.path(format_args!("-{:06}", process.files)), number: process.files, length: 0 }
        })
    }

    /// Adds to the file. False if that can't be done: then it ends with what could be written.
    pub fn add(&mut self, text: &Text) -> bool {
        let file = if self.length == 0 { make(&self.path) } else { open(&self.path) };
        let is_added = text.is_whole && file.is_some_and(|file| file.write_all_at(&text.bytes, self.length).is_ok());
        self.length += text.bytes.len() as u64;
        is_added
    }

    /// Removes what was written after a position in the file.
    pub fn cut(&mut self, length: u64) -> bool {
        self.length = length;
        open(&self.path).is_some_and(|file| file.set_len(length).is_ok())
    }
}
