//! Safe Rust calls of the verified library Hogunlas: judge a station program, run it step by
//! step, print it line by line. What the calls answer is fixed by the standard, `docs/STANDARD.md`.
//!
//! Every call takes the file as bytes and lays its answer over the front of a buffer that the
//! caller lends; the bytes past the answer are kept, and after a refusal all bytes are. Any bytes
//! whatever may be passed: a call answers or refuses, and nothing else.
//!
//! The work is done by `libhogunlas.a`, which `.ci/build` makes of proved code. What
//! is trusted here beside it is the module `ffi`: that the declarations are those of the archive.
//!
//! # A table of threads
//!
//! [`run`] answers the counts of eight threads. Byte 2 of an accepted file is the number of threads
//! that it has; this prints the counts of each:
//!
//! ```
//! # let file = [
//! #     1, 1, 2, 0, 0, 0, 8, 0x20, 0, 0, 0, 0x21, 0, 0, 0, 0, 8, 0x20, 0, 0, 0, 0x21, 0, 0, 0,
//! # ];
//! # let list = [0, 1, 0, 1];
//! let mut state = [0; hogunlas::MAX_STATE];
//! match hogunlas::run(&file, &list, &mut state) {
//!     Ok(threads) => {
//!         println!("thread  moved  waiting  idle");
//!         for (t, counts) in threads.iter().enumerate().take(file[2].into()) {
//!             println!("{t:6} {:6} {:8} {:5}", counts.moved, counts.waiting, counts.idle);
//!         }
//!     }
//!     Err(refusal) => println!("{refusal}"),
//! }
//! ```
#![deny(unsafe_code)]

mod ffi;

use std::error::Error;
use std::fmt;
use std::iter::Sum;
use std::ops::Add;

/// The version of the standard that the calls follow: the number before the point.
pub const STANDARD_MAJOR: u32 = 1;

/// The version of the standard that the calls follow: the number after the point.
pub const STANDARD_MINOR: u32 = 4;

/// The length of the largest file that is not refused.
pub const MAX_FILE: usize = 33_173;

/// The number of threads that a file has at most, and of those whose counts `run` answers.
pub const MAX_THREADS: usize = 8;

/// The length of the longest report: a buffer of this length is enough for every file.
pub const MAX_REPORT: usize = 8_200;

/// The length of the longest list that `run` takes.
pub const MAX_LIST: usize = 65_536;

/// The length of the longest end state: a buffer of this length is enough for every file.
pub const MAX_STATE: usize = 544;

/// The buffer that `line` needs, whatever the line's own length.
pub const LINE_BUFFER: usize = 48;

/// Why a call gave no answer (the standard, "Who can bring a number about"). What the detail means
/// depends on the number: for most, it is the offset in the file at which the offence lies.
#[derive(Clone, Copy, Debug, PartialEq, Eq, Hash)]
pub struct Refusal {
    /// 1 to 8: the sender of the file; 9 to 13 and 18: the program's writer; 14 to 17: the caller.
    pub number: u32,
    pub detail: u64,
}

impl Refusal {
    /// The refusal that a call's numbers state, unless its number is 0, which stands for none.
    /// What a call does not state is 0, as the header says; builds for tests look.
    fn none_or(number: u32, detail: u64, answer_is_0: bool) -> Result<(), Refusal> {
        if number == 0 {
            debug_assert_eq!(detail, 0, "an answer has no detail");
            return Ok(());
        }
        debug_assert!(answer_is_0, "a refusal answers");
        Err(Refusal { number, detail })
    }
}

/// As the program `bench` prints it.
impl fmt::Display for Refusal {
    fn fmt(&self, formatter: &mut fmt::Formatter<'_>) -> fmt::Result {
        write!(formatter, "refused {} at {}", self.number, self.detail)
    }
}

impl Error for Refusal {}

/// Judges a file, lays its report over the front of `report` and answers the report's length.
///
/// The report has, for each thread, a byte for each instruction (0 at ELSE, AGAIN and END) and
/// then one for the thread's whole code: B 1, L 2, R 3, A 4, T 5.
///
/// Refusals 1 to 13 and 18 are the file's; 16 is a buffer shorter than the report, with the bytes
/// needed as its detail.
///
/// ```
/// // TAKE k0, READ r2 v0, GIVE k0
/// let file = [
///     1, 1, 1, 0, 6, 0, 0, 0, 0, 0, 5, 0, 12, 0x20, 0, 0, 0, 0x10, 2, 0, 0, 0x21, 0, 0, 0,
/// ];
/// let mut report = [0; hogunlas::MAX_REPORT];
/// let length = hogunlas::judge(&file, &mut report)?;
/// assert_eq!(report[..length], [3, 1, 2, 4]);
///
/// let cut = hogunlas::judge(&file[..20], &mut report).unwrap_err();
/// assert_eq!(cut.to_string(), "refused 1 at 20");
/// # Ok::<(), hogunlas::Refusal>(())
/// ```
///
/// A block may state the byte that the report has for it, and a false statement is refused:
///
/// ```
/// // ATOMIC 1 B, END: a block that is B, and states it.
/// let mut file = [1, 0, 1, 0, 0, 0, 8, 0x34, 1, 0, 1, 0x35, 0, 0, 0];
/// let mut report = [0; hogunlas::MAX_REPORT];
/// let length = hogunlas::judge(&file, &mut report)?;
/// assert_eq!(report[..length], [1, 0, 1]);
///
/// file[8] = 4; // it states A
/// let overstated = hogunlas::judge(&file, &mut report).unwrap_err();
/// assert_eq!(overstated.to_string(), "refused 18 at 11");
/// # Ok::<(), hogunlas::Refusal>(())
/// ```
pub fn judge(file: &[u8], report: &mut [u8]) -> Result<usize, Refusal> {
    let judged = ffi::judge(file, report);
    Refusal::none_or(judged.refusal, judged.detail, judged.length == 0)?;
    Ok(judged.length as usize)
}

/// A thread's counts: how many of the list's entries for it were of each kind. The three sum to how
/// often the list names the thread.
///
/// Counts of several threads can be added. Those of all threads of a run sum to the list's length.
#[derive(Clone, Copy, Debug, Default, PartialEq, Eq, Hash)]
pub struct Counts {
    pub moved: u64,
    pub waiting: u64,
    pub idle: u64,
}

impl Add for Counts {
    type Output = Counts;

    fn add(self, other: Counts) -> Counts {
        Counts {
            moved: self.moved + other.moved,
            waiting: self.waiting + other.waiting,
            idle: self.idle + other.idle,
        }
    }
}

impl Sum for Counts {
    fn sum<I: Iterator<Item = Counts>>(all: I) -> Counts {
        all.fold(Counts::default(), Counts::add)
    }
}

impl<'c> Sum<&'c Counts> for Counts {
    fn sum<I: Iterator<Item = &'c Counts>>(all: I) -> Counts {
        all.copied().sum()
    }
}

/// Runs an accepted file from the start through a list of thread numbers, lays the end state over
/// the front of `state` and answers the counts of each thread, by thread number. Those of a thread
/// that the file does not have are 0.
///
/// The end state has 4 bytes for each variable, 1 for each lock (0 free, or the holder's number
/// plus 1) and 34 for each thread (its place, then its eight registers), numbers big-endian.
///
/// Refusals 1 to 13 and 18 are the file's; 14 is a list of more than [`MAX_LIST`] entries, 15 an
/// entry that names no thread (its index), 16 a buffer shorter than the state (the bytes needed).
///
/// ```
/// use hogunlas::Counts;
///
/// // Two threads, each TAKE k0, GIVE k0.
/// let file = [
///     1, 1, 2, 0, 0, 0, 8, 0x20, 0, 0, 0, 0x21, 0, 0, 0, 0, 8, 0x20, 0, 0, 0, 0x21, 0, 0, 0,
/// ];
/// let mut state = [0; hogunlas::MAX_STATE];
/// let threads = hogunlas::run(&file, &[0, 1, 0, 1], &mut state)?;
/// assert_eq!(threads[0], Counts { moved: 2, waiting: 0, idle: 0 });
/// assert_eq!(threads[1], Counts { moved: 1, waiting: 1, idle: 0 });
/// assert_eq!(threads[2..], [Counts::default(); 6]); // the file has no such threads
/// assert_eq!(state[..3], [2, 0, 2]); // k0, held by thread 1, and the place of thread 0
///
/// let total: Counts = threads.iter().sum();
/// assert_eq!(total, Counts { moved: 3, waiting: 1, idle: 0 });
/// # Ok::<(), hogunlas::Refusal>(())
/// ```
pub fn run(file: &[u8], list: &[u8], state: &mut [u8]) -> Result<[Counts; MAX_THREADS], Refusal> {
    let ran = ffi::run(file, list, state);
    let threads = ran.threads.map(|counts| Counts {
        moved: counts.moved,
        waiting: counts.waiting,
        idle: counts.idle,
    });
    let none = [Counts::default(); MAX_THREADS];
    Refusal::none_or(ran.refusal, ran.detail, threads == none)?;
    Ok(threads)
}

/// Lays line `i` of an accepted file's printout, its newline included, over the front of `text`
/// and answers the line's length.
///
/// Refusals 1 to 13 and 18 are the file's; 17 is an `i` that is not below the line count (that
/// count), 16 a buffer shorter than [`LINE_BUFFER`].
///
/// ```
/// let file = [
///     1, 1, 1, 0, 6, 0, 0, 0, 0, 0, 5, 0, 12, 0x20, 0, 0, 0, 0x10, 2, 0, 0, 0x21, 0, 0, 0,
/// ];
/// let mut text = [0; hogunlas::LINE_BUFFER];
/// let length = hogunlas::line(&file, 7, &mut text)?;
/// assert_eq!(&text[..length], b"10 02 00 00 1 READ r2 v0 B\n");
/// # Ok::<(), hogunlas::Refusal>(())
/// ```
pub fn line(file: &[u8], i: u64, text: &mut [u8]) -> Result<usize, Refusal> {
    let printed = ffi::line(file, i, text);
    Refusal::none_or(printed.refusal, printed.detail, printed.length == 0)?;
    Ok(printed.length as usize)
}
