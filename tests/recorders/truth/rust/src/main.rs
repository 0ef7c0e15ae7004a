//! truth DATA SCRIPT: does the random programs of a script, as interpreter.c does, by the recorder for Rust.
mod script;

use pmtrace::{LineSize, Recorder};
use script::{Operation, Program};
use std::os::unix::fs::FileExt;
use std::sync::atomic::{AtomicBool, AtomicU64, Ordering};
use std::sync::{Arc, Mutex};
use std::thread::{self, JoinHandle};

type Pool = Recorder<Vec<u8>>;

const RECORD: u64 = 64;

/// A program that runs: what its threads share.
struct Run {
    program: Program,
    data: Vec<u8>,
    pool: Mutex<Option<Arc<Pool>>>,
    tickets: AtomicU64,
    open_gate: AtomicBool,
    handles: Mutex<Vec<Option<JoinHandle<()>>>>,
}

/// What an operation answered: a flag, what was expected, and what was seen.
#[derive(Default)]
struct Answer {
    flag: u64,
    expected: u64,
    seen: u64,
}

impl Run {
    fn ticket(&self) -> u64 {
        self.tickets.fetch_add(1, Ordering::Relaxed) + 1
    }

    fn pool(&self) -> Arc<Pool> {
        Arc::clone(self.pool.lock().unwrap().as_ref().expect("the trace is open"))
    }

    fn value(&self, at: usize) -> u64 {
        u64::from_le_bytes(self.data[at..at + 8].try_into().unwrap())
    }

    /// Does the operations of a thread, and logs each in the file.
    fn thread(self: &Arc<Run>, number: usize) {
        let (first, operations) = &self.program.threads[number];
        for (at, operation) in operations.iter().enumerate() {
            let place = (first + at as u64) * RECORD;
            let begun = self.ticket();
            self.program.log.write_all_at(&begun.to_le_bytes(), place).unwrap();
            let answer = self.perform(operation);
            let fields = [begun, self.ticket(), answer.flag, answer.expected, 0, answer.seen, 0, 0];
            let bytes: Vec<u8> = fields.iter().flat_map(|field| field.to_le_bytes()).collect();
            self.program.log.write_all_at(&bytes, place).unwrap();
        }
    }

    fn perform(self: &Arc<Run>, operation: &Operation) -> Answer {
        let mut answer = Answer::default();
        match operation.word.as_str() {
            "open" => self.open(),
            "close" => answer.flag = self.close(),
            "spawn" => self.spawn(operation.number(0)),
            "join" => self.join(operation.number(0)),
            "yield" => thread::yield_now(),
            "pause" => (0..operation.number(0)).for_each(|at| {
                std::hint::black_box(at);
            }),
            "wait" => self.wait(),
            "go" => self.open_gate.store(true, Ordering::Release),
            "exit" => std::process::exit(operation.number(0) as i32),
            "abort" => std::process::abort(),
            _ => self.record(operation, &mut answer),
        }
        answer
    }

    fn open(&self) {
        let line_size = match self.program.line_size {
            32 => LineSize::Bytes32,
            64 => LineSize::Bytes64,
            128 => LineSize::Bytes128,
            _ => LineSize::Bytes256,
        };
        let pool = Recorder::create(&self.program.trace, vec![0; self.program.length], line_size).unwrap();
        *self.pool.lock().unwrap() = Some(Arc::new(pool));
    }

    /// Ends the trace, and leaves the memory in the pool's file.
    fn close(&self) -> u64 {
        let pool = self.pool.lock().unwrap().take().and_then(Arc::into_inner).expect("all threads have ended");
        let (memory, complete) = pool.close();
        std::fs::write(&self.program.pool, memory).unwrap();
        complete.is_err().into()
    }

    fn spawn(self: &Arc<Run>, number: usize) {
        let run = Arc::clone(self);
        self.handles.lock().unwrap()[number] = Some(thread::spawn(move || run.thread(number)));
    }

    fn join(&self, number: usize) {
        let handle = self.handles.lock().unwrap()[number].take();
        handle.expect("it was spawned").join().unwrap();
    }

    fn wait(&self) {
        while !self.open_gate.load(Ordering::Acquire) {
            thread::yield_now();
        }
    }

    /// The operations that the recorder has calls for.
    fn record(&self, operation: &Operation, answer: &mut Answer) {
        let pool = self.pool();
        let (at, length) = (operation.number(1), operation.number(2));
        let (range, from) = (at..at + length, operation.number(3));
        match operation.word.as_str() {
            "copy" | "move" | "store" => pool.store(at, &self.data[from..from + length]),
            "fill" => pool.fill(range, from as u8),
            "within" => pool.copy_within(operation.number(4)..operation.number(4) + length, at),
            "compare" => self.compare(&pool, operation, answer),
            "read" => answer.seen = u64::from_le_bytes(pool.load(at)),
            "clwb" => pool.clwb(range),
            "clflushopt" => pool.clflushopt(range),
            "clflush" => pool.clflush(range),
            "sfence" => pool.sfence(),
            "mfence" => pool.mfence(),
            "persist" => pool.persist(range),
            "is_persist" => pool.is_persist(range),
            "is_ordered" => pool.is_ordered_before(range, operation.number(4)..operation.number(4) + operation.number(5)),
            other => panic!("no operation {other}"),
        }
    }

    fn compare(&self, pool: &Pool, operation: &Operation, answer: &mut Answer) {
        let at = operation.number(1);
        let mode = operation.number(5);
        let expected = if mode == 1 { u64::from_le_bytes(pool.load(at)) } else { self.value(operation.number(4)) };
        let (done, seen) = match pool.compare_exchange(at, expected, self.value(operation.number(3))) {
            Ok(seen) => (1, seen),
            Err(seen) => (0, seen),
        };
        *answer = Answer { flag: done, expected, seen };
    }
}

fn main() {
    let words: Vec<String> = std::env::args().collect();
    let data = std::fs::read(&words[1]).unwrap();
    for program in script::read(&words[2]) {
        let handles = program.threads.iter().map(|_| None).collect();
        let run = Arc::new(Run {
            program,
            data: data.clone(),
            pool: Mutex::new(None),
            tickets: AtomicU64::new(0),
            open_gate: AtomicBool::new(false),
            handles: Mutex::new(handles),
        });
        run.thread(0);
    }
}
