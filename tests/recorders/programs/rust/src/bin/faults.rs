//! faults TRACE CASE: what a recorder meets, as in faults.c, by the recorder for Rust.
use pmtrace::{LineSize, Recorder};
use std::panic::{catch_unwind, set_hook, AssertUnwindSafe};
use std::thread;

const POOL: usize = 9_000_000;
const PAGE: usize = 4096;

type Pool = Recorder<Vec<u8>>;

fn save_a_word(pool: &Pool) {
    pool.store(0, b"a word..");
    pool.persist(0..8);
}

fn count_threads(pool: &Pool) {
    for _ in 0..257 {
        thread::scope(|scope| {
            scope.spawn(|| save_a_word(pool));
        });
    }
}

/// Each call must panic and change nothing.
fn leave_the_pool(pool: &Pool) {
    let calls: [fn(&Pool); 6] = [
        |pool| pool.store(POOL - 8, &[3; 16]),
        |pool| pool.fill(usize::MAX - 1..usize::MAX, 1),
        |pool| pool.clwb(POOL..POOL + 1),
        |pool| pool.is_persist(POOL - 1..POOL + 1),
        |pool| pool.is_ordered_before(0..8, POOL..POOL + 8),
        |pool| pool.copy_within(0..16, POOL - 8),
    ];
    set_hook(Box::new(|_| {}));
    for call in calls {
        assert!(catch_unwind(AssertUnwindSafe(|| call(pool))).is_err());
    }
    assert_eq!(pool.load(POOL - 8), [0; 8]);
    save_a_word(pool);
}

fn main() {
    let words: Vec<String> = std::env::args().collect();
    let pool = match Recorder::create(&words[1], vec![0; POOL], LineSize::Bytes64) {
        Ok(pool) => pool,
        Err(error) => return eprintln!("not opened: {error}"),
    };
    match words[2].as_str() {
        "abort" => {
            save_a_word(&pool);
            std::process::abort();
        }
        "exit" => {
            save_a_word(&pool);
            std::process::exit(3);
        }
        "threads" => count_threads(&pool),
        "outside" => leave_the_pool(&pool),
        "disk" => (0..100).for_each(|page| pool.fill(page * PAGE..(page + 1) * PAGE, page as u8)),
        "empty" => {}
        "events" => pool.fill(0..POOL, 1),
        "moves" => {
            std::env::set_current_dir("/").expect("there is a root");
            pool.fill(0..POOL, 1);
        }
        other => panic!("there is no case {other}"),
    }
    println!("closed {}", if pool.close().1.is_ok() { 0 } else { -1 });
}
