//! The trace and its labels as files: each call's events are written before it returns.
use std::collections::HashMap;
use std::env;
use std::ffi::OsString;
use std::fmt;
use std::fs::{self, File};
use std::io::{self, ErrorKind, Write};
use std::panic::Location;
use std::path::{Path, PathBuf};
use std::thread::{self, ThreadId};

use crate::Incomplete;

const MOST_EVENTS: u64 = 1_000_000;
const MOST_THREADS: usize = 256;
const ROOM: usize = 1 << 16;

/// An open trace.
#[derive(Debug)]
pub(crate) struct Trace {
    path: PathBuf,
    /// The file that says where the trace was cut, from the root on.
    cut_path: PathBuf,
    file: File,
    labels: Option<File>,
    /// Lines that wait to be written.
    text: Vec<u8>,
    label_text: Vec<u8>,
    /// How many bytes of the file are whole lines.
    written: u64,
    threads: HashMap<ThreadId, usize>,
    events: u64,
    missing: u64,
    /// Why nothing more is noted.
    ended: Option<String>,
}

impl Trace {
    pub(crate) fn create(path: &Path, line_size: usize, labeled: bool) -> io::Result<Trace> {
        let header = format!("pmtrace 2 {line_size}\n");
        let mut file = File::create(path)?;
        let cut_path = env::current_dir().unwrap_or_default().join(beside(path, ".cut"));
        match fs::remove_file(&cut_path) {
            Err(error) if error.kind() != ErrorKind::NotFound => return Err(error),
            _ => {}
        }
        file.write_all(header.as_bytes())?;
        let labels = labeled.then(|| File::create(beside(path, ".labels"))).transpose()?;
        Ok(Trace {
            path: path.to_owned(),
            cut_path,
            file,
            labels,
            text: Vec::new(),
            label_text: Vec::new(),
            written: header.len() as u64,
            threads: HashMap::new(),
            events: 0,
            missing: 0,
            ended: None,
        })
    }

    /// Notes an event of the calling thread, which waits to be written.
    pub(crate) fn note(&mut self, place: &Location<'_>, word: &str, fields: fmt::Arguments<'_>) {
        let Some(thread) = self.thread_of_event() else {
            self.missing += 1;
            return;
        };
        self.events += 1;
        put_line(&mut self.text, format_args!("{word} {thread}{fields}"));
        if self.labels.is_some() {
            put_line(&mut self.label_text, format_args!("{} {}:{}", self.events, place.file(), place.line()));
        }
        if self.text.len().max(self.label_text.len()) > ROOM {
            self.write_out();
        }
    }

    /// Writes what waits, events before their labels.
    pub(crate) fn write_out(&mut self) {
        match write_whole(&mut self.file, &self.text) {
            (_, Ok(())) => {
                self.written += self.text.len() as u64;
                self.write_labels();
            }
            (out, Err(error)) => self.cut(out, &error),
        }
        self.text.clear();
        self.label_text.clear();
    }

    /// Ends the trace.
    pub(crate) fn close(mut self) -> Result<(), Incomplete> {
        self.write_out();
        if self.ended.is_none() && self.events == 0 {
            self.write_cut("no event came");
        }
        let Some(why) = self.ended else { return Ok(()) };
        if self.missing > 0 {
            eprintln!("pmtrace: {}: {} later events are not in the trace", self.path.display(), self.missing);
        }
        Err(Incomplete { missing: self.missing, why })
    }

    /// The thread's number for one more event, if there is room for it.
    fn thread_of_event(&mut self) -> Option<usize> {
        if self.ended.is_none() && self.events == MOST_EVENTS {
            self.write_out();
            self.end("a trace has at most 1000000 events".to_owned());
        }
        if self.ended.is_some() {
            return None;
        }
        let next = self.threads.len();
        let id = thread::current().id();
        if next == MOST_THREADS && !self.threads.contains_key(&id) {
            self.write_out();
            self.end("a trace has at most 256 threads, and here is the 257th".to_owned());
            return None;
        }
        Some(*self.threads.entry(id).or_insert(next))
    }

    fn write_labels(&mut self) {
        let Some(labels) = &mut self.labels else { return };
        if let (_, Err(error)) = write_whole(labels, &self.label_text) {
            eprintln!("pmtrace: {}: the labels end here: {error}", beside(&self.path, ".labels").display());
            self.labels = None;
        }
    }

    /// After a failed write: the file is cut behind its last whole line, and the events that are not in it are missing.
    fn cut(&mut self, out: usize, error: &io::Error) {
        let whole = self.text[..out].iter().rposition(|byte| *byte == b'\n').map_or(0, |at| at + 1);
        let lost = self.text[whole..].iter().filter(|byte| **byte == b'\n').count() as u64;
        self.events -= lost;
        self.missing += lost;
        self.written += whole as u64;
        if whole < out {
            if let Err(error) = self.file.set_len(self.written) {
                eprintln!("pmtrace: {}: its last line can't be cut off: {error}", self.path.display());
            }
        }
        self.end(error.to_string());
    }

    fn end(&mut self, why: String) {
        if self.ended.is_none() {
            eprintln!("pmtrace: {}: the trace ends after event {}: {why}", self.path.display(), self.events);
            self.write_cut(&why);
            self.ended = Some(why);
        }
    }

    /// Says beside the trace that it is not all of what happened. No file stands beside a device.
    fn write_cut(&self, why: &str) {
        if !self.file.metadata().is_ok_and(|data| data.is_file()) {
            return;
        }
        if let Err(error) = fs::write(&self.cut_path, format!("{} {why}\n", self.events)) {
            eprintln!("pmtrace: {}: {error}", self.cut_path.display());
        }
    }
}

/// The file of this name with an ending behind it.
fn beside(path: &Path, ending: &str) -> PathBuf {
    let mut name = OsString::from(path);
    name.push(ending);
    PathBuf::from(name)
}

fn put_line(text: &mut Vec<u8>, line: fmt::Arguments<'_>) {
    text.write_fmt(line).expect("a vector takes all bytes");
    text.push(b'\n');
}

/// Writes the bytes, and says how many are out.
fn write_whole(file: &mut File, bytes: &[u8]) -> (usize, io::Result<()>) {
    let mut out = 0;
    while out < bytes.len() {
        match file.write(&bytes[out..]) {
            Ok(0) => return (out, Err(ErrorKind::WriteZero.into())),
            Ok(more) => out += more,
            Err(error) if error.kind() == ErrorKind::Interrupted => {}
            Err(error) => return (out, Err(error)),
        }
    }
    (out, Ok(()))
}
