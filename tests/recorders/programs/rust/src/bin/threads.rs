//! threads PREFIX turns|free [forget]: does what threads.c does, by the recorder for Rust.
use pmtrace::{LineSize, Recorder};
use std::error::Error;
use std::sync::{Condvar, Mutex};
use std::thread;

const THREADS: usize = 12;
const SLICES: usize = 10;
const SLICE: usize = 8192;
const HEAD: usize = 4096;
const POOL: usize = HEAD + THREADS * SLICES * SLICE;

struct Test {
    pool: Recorder<Vec<u8>>,
    in_turns: bool,
    forgets: bool,
    turn: Mutex<usize>,
    next: Condvar,
}

impl Test {
    fn in_turn(&self, thread: usize, call: impl FnOnce()) {
        if !self.in_turns {
            return call();
        }
        let waiting = self.turn.lock().unwrap();
        drop(self.next.wait_while(waiting, |turn| *turn % THREADS != thread).unwrap());
        call();
        *self.turn.lock().unwrap() += 1;
        self.next.notify_all();
    }

    fn count(&self) {
        let mut seen = 0;
        while let Err(now) = self.pool.compare_exchange(0, seen, seen + 1) {
            seen = now;
        }
    }

    fn write_slice(&self, thread: usize, number: usize) {
        let pool = &self.pool;
        let slice = HEAD + (thread * SLICES + number) * SLICE;
        let length = 1 + (thread * 977 + number * 1613) % 6000;
        let start = slice + (thread + 3 * number) % 64;
        let range = start..start + length;
        let forgotten = self.forgets && thread == 5 && number == 7;
        let bytes: Vec<u8> = (0..length).map(|at| (at * (thread + 1) + number + 1) as u8).collect();
        self.in_turn(thread, || pool.store(start, &bytes)); // forgotten
        self.in_turn(thread, || match number % 3 {
            _ if forgotten => {}
            0 => pool.persist(range.clone()),
            1 => pool.clwb(range.clone()),
            _ => pool.clflush(range.clone()),
        });
        self.in_turn(thread, || pool.sfence());
        self.in_turn(thread, || pool.is_persist(range.clone())); // claimed
        self.in_turn(thread, || pool.fill(slice + 7000..slice + 7020, 1));
        self.in_turn(thread, || pool.persist(slice + 7000..slice + 7020));
        self.in_turn(thread, || pool.is_ordered_before(range.clone(), slice + 7000..slice + 7020));
        self.in_turn(thread, || self.count());
    }
}

fn main() -> Result<(), Box<dyn Error>> {
    let words: Vec<String> = std::env::args().collect();
    let pool = Recorder::create_with_labels(format!("{}.trace", words[1]), vec![0; POOL], LineSize::Bytes64)?;
    let test = Test { pool, in_turns: words[2] == "turns", forgets: words.len() == 4, turn: Mutex::new(0), next: Condvar::new() };
    thread::scope(|scope| {
        for thread in 0..THREADS {
            let test = &test;
            scope.spawn(move || (0..SLICES).for_each(|number| test.write_slice(thread, number)));
        }
    });
    test.pool.persist(0..8);
    let (memory, complete) = test.pool.close();
    complete?;
    std::fs::write(format!("{}.memory", words[1]), memory)?;
    Ok(())
}
