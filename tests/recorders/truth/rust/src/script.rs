//! Reads the scripts of random programs, which have one pool each.
use std::fs::File;
use std::path::PathBuf;

pub struct Operation {
    pub word: String,
    numbers: Vec<usize>,
}

impl Operation {
    /// The number at this place behind the word, or 0.
    pub fn number(&self, at: usize) -> usize {
        self.numbers.get(at).copied().unwrap_or(0)
    }
}

pub struct Program {
    pub line_size: usize,
    pub length: usize,
    pub trace: PathBuf,
    pub pool: PathBuf,
    pub log: File,
    /// The place of each thread's first record in the log, and its operations.
    pub threads: Vec<(u64, Vec<Operation>)>,
}

pub fn read(path: &str) -> Vec<Program> {
    let text = std::fs::read_to_string(path).unwrap();
    let mut lines = text.lines().map(|line| line.split(' ').collect::<Vec<_>>());
    let mut programs = Vec::new();
    while let Some(header) = lines.next() {
        programs.push(read_program(&header, &mut lines));
    }
    programs
}

/// `program LINE_SIZE POOLS THREADS TRACE LOG`, `pool LENGTH SKEW PATH`, and for each thread `thread COUNT` and its operations.
fn read_program<'a>(header: &[&str], lines: &mut impl Iterator<Item = Vec<&'a str>>) -> Program {
    let pool = lines.next().expect("a pool");
    let mut records = 0;
    let mut threads = Vec::new();
    for _ in 0..number(header[3]) {
        let count = number(lines.next().expect("a thread")[1]);
        let operations = lines.by_ref().take(count).map(|fields| read_operation(&fields)).collect();
        threads.push((records, operations));
        records += count as u64;
    }
    let log = File::create(header[5]).unwrap();
    log.set_len((records + 1) * crate::RECORD).unwrap();
    Program { line_size: number(header[1]), length: number(pool[1]), trace: header[4].into(), pool: pool[3].into(), log, threads }
}

fn read_operation(fields: &[&str]) -> Operation {
    Operation { word: fields[0].to_owned(), numbers: fields[1..].iter().map(|field| number(field)).collect() }
}

fn number(text: &str) -> usize {
    text.parse().expect("a number")
}
