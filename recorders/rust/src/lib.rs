//! Records what a program does to persistent memory, as a trace for pmtrim.
//!
//! A [`Recorder`] owns the memory of a pool: a mapped file, or a buffer that stands for one. Threads share it by reference and name
//! places of the pool by their distance from its beginning, which is the beginning of a cache line.
//!
//! ```
//! # fn main() -> Result<(), Box<dyn std::error::Error>> {
//! # let file = std::env::temp_dir().join(format!("pmtrace-doc-{}.trace", std::process::id()));
//! use pmtrace::{LineSize, Recorder};
//!
//! let pool = Recorder::create(&file, vec![0; 8192], LineSize::Bytes64)?;
//! pool.store(4096, b"a record");
//! pool.persist(4096..4104);
//! pool.store(0, &4096u64.to_le_bytes());
//! pool.persist(0..8);
//! pool.is_ordered_before(4096..4104, 0..8);
//! let (memory, complete) = pool.close();
//! complete?;
//! assert_eq!(&memory[4096..4104], b"a record");
//! # std::fs::remove_file(&file)?;
//! # Ok(())
//! # }
//! ```
//!
//! - A store is done and noted under one lock, so the order in the trace is the order in which memory saw the stores.
//! - A flush or a fence is only noted: keep your own instructions beside the calls. Where other threads store meanwhile, let a flush
//!   follow its call, and a fence come before it, so that the trace promises no more than the machine did.
//! - Each call writes its events before it returns, so nothing is lost when the program exits, panics, aborts or is killed. (A signal
//!   that kills inside a write may leave a part of a line, which pmtrim refuses as `truncated`.)
//! - The trace is always a true beginning of what happened. It ends early where it is full (1,000,000 events), where a 257th thread
//!   comes, or where the file can't be written. Standard error tells of it once, [`Recorder::close`] at the end, and the file FILE.cut,
//!   whose line has the number of the last event and the reason. A trace without events has such a file too.
//! - A range that leaves the pool panics, as a slice does; nothing is changed or noted then.
#![forbid(unsafe_code)]
#![warn(missing_docs)]

mod trace;

use std::fmt;
use std::io;
use std::ops::Range;
use std::panic::Location;
use std::path::Path;
use std::sync::{Mutex, MutexGuard, PoisonError};

use trace::Trace;

const WORD_BYTES: usize = 8;
const MOST_ASSERTED: usize = 4096;

/// How many bytes a cache line has.
#[derive(Clone, Copy, Debug, PartialEq, Eq)]
pub enum LineSize {
    /// 32 bytes
    Bytes32 = 32,
    /// 64 bytes
    Bytes64 = 64,
    /// 128 bytes
    Bytes128 = 128,
    /// 256 bytes
    Bytes256 = 256,
}

/// What is missing in a trace that was closed.
#[derive(Clone, Debug, PartialEq, Eq)]
pub struct Incomplete {
    /// How many events came after the end of the trace.
    pub missing: u64,
    /// Why it ended.
    pub why: String,
}

impl fmt::Display for Incomplete {
    fn fmt(&self, f: &mut fmt::Formatter<'_>) -> fmt::Result {
        write!(f, "{}; {} later events are not in the trace", self.why, self.missing)
    }
}

impl std::error::Error for Incomplete {}

/// The memory of a pool, and the trace of what happens to it.
#[derive(Debug)]
pub struct Recorder<M> {
    length: usize,
    line_size: usize,
    state: Mutex<State<M>>,
}

#[derive(Debug)]
struct State<M> {
    memory: M,
    trace: Trace,
}

impl<M: AsRef<[u8]> + AsMut<[u8]>> Recorder<M> {
    /// Begins a trace of the memory in this file. Fails where the file can't be made or written, and where the memory is longer
    /// than the addresses of a trace, 2^48 bytes.
    pub fn create(file: impl AsRef<Path>, memory: M, line_size: LineSize) -> io::Result<Self> {
        Self::begin(file.as_ref(), memory, line_size, false)
    }

    /// As [`Recorder::create`], with a labels file beside the trace, whose name has `.labels` behind the trace's. There stands for
    /// each event the source line of its call, as `EVENT FILE:LINE`.
    pub fn create_with_labels(file: impl AsRef<Path>, memory: M, line_size: LineSize) -> io::Result<Self> {
        Self::begin(file.as_ref(), memory, line_size, true)
    }

    fn begin(file: &Path, memory: M, line_size: LineSize, labeled: bool) -> io::Result<Self> {
        let length = memory.as_ref().len();
        let line_size = line_size as usize;
        if length as u64 > (1 << 48) - line_size as u64 {
            return Err(io::Error::new(io::ErrorKind::InvalidInput, "the memory is longer than the addresses of a trace"));
        }
        let trace = Trace::create(file, line_size, labeled)?;
        Ok(Recorder { length, line_size, state: Mutex::new(State { memory, trace }) })
    }

    /// Ends the trace. The memory comes back, and whether all that happened is in the trace.
    pub fn close(self) -> (M, Result<(), Incomplete>) {
        let State { memory, trace } = self.state.into_inner().unwrap_or_else(PoisonError::into_inner);
        (memory, trace.close())
    }

    /// How many bytes the pool has.
    pub fn len(&self) -> usize {
        self.length
    }

    /// Whether the pool has no bytes.
    pub fn is_empty(&self) -> bool {
        self.length == 0
    }

    /// The N bytes from `at` on. Nothing is noted.
    ///
    /// # Panics
    /// Where they are not all in the pool; so do all calls below.
    #[track_caller]
    pub fn load<const N: usize>(&self, at: usize) -> [u8; N] {
        let mut bytes = [0; N];
        self.read(at, &mut bytes);
        bytes
    }

    /// Copies bytes out of the pool. Nothing is noted.
    #[track_caller]
    pub fn read(&self, at: usize, into: &mut [u8]) {
        let range = self.inside(from(at, into.len()));
        into.copy_from_slice(&self.state().memory.as_ref()[range]);
    }

    /// Stores the bytes from `at` on. In the trace they are stores of at most an aligned word of 8 bytes each, by rising address.
    #[track_caller]
    pub fn store(&self, at: usize, bytes: &[u8]) {
        let (range, place) = (self.inside(from(at, bytes.len())), Location::caller());
        let mut state = self.state();
        state.memory.as_mut()[range.clone()].copy_from_slice(bytes);
        state.note_stores(place, range);
    }

    /// Copies a range of the pool to `at`; the two may overlap.
    #[track_caller]
    pub fn copy_within(&self, range: Range<usize>, at: usize) {
        let range = self.inside(range);
        let (to, place) = (self.inside(from(at, range.len())), Location::caller());
        let mut state = self.state();
        state.memory.as_mut().copy_within(range, at);
        state.note_stores(place, to);
    }

    /// Stores one byte all over the range.
    #[track_caller]
    pub fn fill(&self, range: Range<usize>, byte: u8) {
        let (range, place) = (self.inside(range), Location::caller());
        let mut state = self.state();
        state.memory.as_mut()[range.clone()].fill(byte);
        state.note_stores(place, range);
    }

    /// Stores a word, little end first, where the expected one stands there; answers the word that stood there, as `Ok` where it was the
    /// expected one. It is noted as a plain store if it wrote, and as no fence: on the processor a locked instruction waits
    /// for the thread's flushes, so call [`Recorder::sfence`] before it if the program counts on that.
    #[track_caller]
    pub fn compare_exchange(&self, at: usize, expected: u64, value: u64) -> Result<u64, u64> {
        let (range, place) = (self.inside(from(at, WORD_BYTES)), Location::caller());
        let mut state = self.state();
        let word = &mut state.memory.as_mut()[range.clone()];
        let before = word.iter().rev().fold(0, |word, byte| word << 8 | u64::from(*byte));
        if before != expected {
            return Err(before);
        }
        word.copy_from_slice(&value.to_le_bytes());
        state.note_stores(place, range);
        Ok(before)
    }

    /// Notes a `clwb` of each line of the range.
    #[track_caller]
    pub fn clwb(&self, range: Range<usize>) {
        self.flush("clwb", range, Location::caller());
    }

    /// Notes a `clflushopt` of each line of the range.
    #[track_caller]
    pub fn clflushopt(&self, range: Range<usize>) {
        self.flush("clflushopt", range, Location::caller());
    }

    /// Notes a `clflush` of each line of the range.
    #[track_caller]
    pub fn clflush(&self, range: Range<usize>) {
        self.flush("clflush", range, Location::caller());
    }

    /// Notes an `sfence` of the calling thread.
    #[track_caller]
    pub fn sfence(&self) {
        self.fence("sfence", Location::caller());
    }

    /// Notes an `mfence` of the calling thread.
    #[track_caller]
    pub fn mfence(&self) {
        self.fence("mfence", Location::caller());
    }

    /// Notes a `clwb` of each line of the range and an `sfence`, with no event of another thread between.
    #[track_caller]
    pub fn persist(&self, range: Range<usize>) {
        let (lines, place) = (self.lines(range), Location::caller());
        let trace = &mut self.state().trace;
        for line in lines {
            trace.note(place, "clwb", format_args!(" {line:#x}"));
        }
        trace.note(place, "sfence", format_args!(""));
        trace.write_out();
    }

    /// Claims that no crash from here on loses what was stored last in the range. Longer ranges are cut at 4096 bytes: the claim holds
    /// exactly where all pieces pass.
    #[track_caller]
    pub fn is_persist(&self, range: Range<usize>) {
        let (range, place) = (self.inside(range), Location::caller());
        let trace = &mut self.state().trace;
        for piece in pieces(range) {
            trace.note(place, "isPersist", format_args!(" {:#x} {}", piece.start, piece.len()));
        }
        trace.write_out();
    }

    /// Claims that at no moment so far a crash could leave some of what was stored last in the second range without all of the first.
    /// Longer ranges are cut at 4096 bytes: the claim holds exactly where all pairs of pieces pass.
    #[track_caller]
    pub fn is_ordered_before(&self, first: Range<usize>, second: Range<usize>) {
        let (first, second, place) = (self.inside(first), self.inside(second), Location::caller());
        let trace = &mut self.state().trace;
        for one in pieces(first) {
            for other in pieces(second.clone()) {
                let fields = format_args!(" {:#x} {} {:#x} {}", one.start, one.len(), other.start, other.len());
                trace.note(place, "isOrderedBefore", fields);
            }
        }
        trace.write_out();
    }

    #[track_caller]
    fn flush(&self, word: &str, range: Range<usize>, place: &Location<'_>) {
        let lines = self.lines(range);
        let trace = &mut self.state().trace;
        for line in lines {
            trace.note(place, word, format_args!(" {line:#x}"));
        }
        trace.write_out();
    }

    fn fence(&self, word: &str, place: &Location<'_>) {
        let trace = &mut self.state().trace;
        trace.note(place, word, format_args!(""));
        trace.write_out();
    }

    fn state(&self) -> MutexGuard<'_, State<M>> {
        self.state.lock().unwrap_or_else(PoisonError::into_inner)
    }

    /// The range, which must be in the pool.
    #[track_caller]
    fn inside(&self, range: Range<usize>) -> Range<usize> {
        assert!(
            range.start <= range.end && range.end <= self.length,
            "the bytes {range:?} are not all in the pool, which has {} bytes",
            self.length
        );
        range
    }

    /// The first addresses of the lines of a range.
    #[track_caller]
    fn lines(&self, range: Range<usize>) -> impl Iterator<Item = usize> {
        let range = self.inside(range);
        let first = range.start - range.start % self.line_size;
        let end = if range.is_empty() { first } else { range.end };
        (first..end).step_by(self.line_size)
    }
}

impl<M: AsRef<[u8]> + AsMut<[u8]>> State<M> {
    /// Notes what stands in the range as stores to its words.
    fn note_stores(&mut self, place: &Location<'_>, range: Range<usize>) {
        let mut at = range.start;
        while at < range.end {
            let end = range.end.min(at - at % WORD_BYTES + WORD_BYTES);
            let bytes = Hex(&self.memory.as_ref()[at..end]);
            self.trace.note(place, "store", format_args!(" {at:#x} {bytes}"));
            at = end;
        }
        self.trace.write_out();
    }
}

struct Hex<'a>(&'a [u8]);

impl fmt::Display for Hex<'_> {
    fn fmt(&self, f: &mut fmt::Formatter<'_>) -> fmt::Result {
        self.0.iter().try_for_each(|byte| write!(f, "{byte:02x}"))
    }
}

/// The range of so many bytes.
fn from(at: usize, length: usize) -> Range<usize> {
    at..at.saturating_add(length)
}

/// The range, cut at the length of an assertion's ranges.
fn pieces(range: Range<usize>) -> impl Iterator<Item = Range<usize>> {
    let end = range.end;
    range.step_by(MOST_ASSERTED).map(move |at| at..end.min(at + MOST_ASSERTED))
}
