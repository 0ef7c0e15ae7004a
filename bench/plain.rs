//! The floor that bench/ compares with: reads a trace text from memory and writes it again, in plain safe Rust, with every check of
//! the format. A line is read in one pass over its bytes; one that is not plainly right goes to a judge, which names its fault.
//! `plain FILE` prints the seconds of reading and of writing.
use std::time::Instant;

#[derive(Clone, Copy)]
enum Op {
    Store(u64, u64, u8),
    Clwb(u64),
    ClflushOpt(u64),
    Clflush(u64),
    Sfence,
    Mfence,
    IsPersist(Range),
    IsOrderedBefore(Range, Range),
}

/// An address in the low 48 bits, and a length above them.
#[derive(Clone, Copy)]
struct Range(u64);

#[derive(Clone, Copy)]
struct Event {
    thread: u8,
    op: Op,
}

struct Trace {
    header: Vec<u8>,
    events: Vec<Event>,
}

type Kind = &'static str;

const PAST: u64 = 1 << 48;
const LIMIT: usize = 1_000_000;

const fn digit_table() -> [u8; 256] {
    let mut table = [16; 256];
    let mut i = 0;
    while i < 16 {
        table[b"0123456789abcdef"[i] as usize] = i as u8;
        i += 1;
    }
    table
}

static DIGITS: [u8; 256] = digit_table();

const fn pair_table() -> [[u8; 2]; 256] {
    let mut table = [[0; 2]; 256];
    let mut i = 0;
    while i < 256 {
        table[i] = [b"0123456789abcdef"[i / 16], b"0123456789abcdef"[i % 16]];
        i += 1;
    }
    table
}

static PAIRS: [[u8; 2]; 256] = pair_table();

// ---- One pass over a line that is plainly right

/// The number at the front, of at most `most` digits, and the rest.
#[inline(always)]
fn number(text: &[u8], base: u64, most: usize) -> Option<(u64, &[u8])> {
    let mut value = 0;
    let mut at = 0;
    for &byte in text.iter().take(most) {
        let digit = DIGITS[byte as usize] as u64;
        if digit >= base {
            break;
        }
        value = value * base + digit;
        at += 1;
    }
    if at == 0 || (at > 1 && text[0] == b'0') {
        return None;
    }
    Some((value, &text[at..]))
}

#[inline(always)]
fn address(text: &[u8]) -> Option<(u64, &[u8])> {
    number(text.strip_prefix(b" 0x")?, 16, 12)
}

#[inline(always)]
fn thread(text: &[u8]) -> Option<(u8, &[u8])> {
    let (value, text) = number(text, 10, 3)?;
    Some((u8::try_from(value).ok()?, text))
}

#[inline(always)]
fn range(text: &[u8]) -> Option<(Range, &[u8])> {
    let (addr, text) = address(text)?;
    let (len, text) = number(text.strip_prefix(b" ")?, 10, 4)?;
    if !in_range(addr, len) {
        return None;
    }
    Some((Range(addr | len << 48), text))
}

/// The bytes at the front, the first in the low byte, how many, and the rest.
#[inline(always)]
fn bytes(text: &[u8]) -> Option<(u64, usize, &[u8])> {
    let (mut value, mut len) = (0, 0);
    for pair in text.chunks_exact(2).take(8) {
        let (high, low) = (DIGITS[pair[0] as usize], DIGITS[pair[1] as usize]);
        if (high | low) > 15 {
            break;
        }
        value |= ((16 * high + low) as u64) << (8 * len);
        len += 1;
    }
    if len == 0 {
        return None;
    }
    Some((value, len, &text[2 * len..]))
}

#[inline(always)]
fn end(event: Event, text: &[u8]) -> Option<(Event, &[u8])> {
    Some((event, text.strip_prefix(b"\n")?))
}

#[inline(always)]
fn plain_event(text: &[u8], newer: bool) -> Option<(Event, &[u8])> {
    if let Some(text) = text.strip_prefix(b"store ") {
        let (thread, text) = thread(text)?;
        let (addr, text) = address(text)?;
        let (value, len, text) = bytes(text.strip_prefix(b" ")?)?;
        if addr as usize % 8 + len > 8 {
            return None;
        }
        return end(Event { thread, op: Op::Store(addr, value, len as u8) }, text);
    }
    if let Some(text) = text.strip_prefix(b"clwb ") {
        let (thread, text) = thread(text)?;
        let (addr, text) = address(text)?;
        return end(Event { thread, op: Op::Clwb(addr) }, text);
    }
    if let Some(text) = text.strip_prefix(b"sfence ") {
        let (thread, text) = thread(text)?;
        return end(Event { thread, op: Op::Sfence }, text);
    }
    rare_event(text, newer)
}

#[inline(never)]
fn rare_event(text: &[u8], newer: bool) -> Option<(Event, &[u8])> {
    if let Some(text) = text.strip_prefix(b"isPersist ") {
        let (thread, text) = thread(text)?;
        let (range, text) = range(text)?;
        return end(Event { thread, op: Op::IsPersist(range) }, text);
    }
    if let Some(text) = text.strip_prefix(b"isOrderedBefore ") {
        let (thread, text) = thread(text)?;
        let (first, text) = range(text)?;
        let (second, text) = range(text)?;
        return end(Event { thread, op: Op::IsOrderedBefore(first, second) }, text);
    }
    if let Some(text) = text.strip_prefix(b"clflushopt ") {
        let (thread, text) = thread(text)?;
        let (addr, text) = address(text)?;
        return end(Event { thread, op: Op::ClflushOpt(addr) }, text);
    }
    if let Some(text) = text.strip_prefix(b"clflush ").filter(|_| newer) {
        let (thread, text) = thread(text)?;
        let (addr, text) = address(text)?;
        return end(Event { thread, op: Op::Clflush(addr) }, text);
    }
    let text = text.strip_prefix(b"mfence ").filter(|_| newer)?;
    let (thread, text) = thread(text)?;
    end(Event { thread, op: Op::Mfence }, text)
}

// ---- The judge of a line

fn digits(field: &[u8], base: u64) -> Result<u64, Kind> {
    if field.is_empty() || (field.len() > 1 && field[0] == b'0') {
        return Err("bad-field");
    }
    let mut value = 0u64;
    for &byte in field {
        let digit = DIGITS[byte as usize] as u64;
        if digit >= base {
            return Err("bad-field");
        }
        value = value.saturating_mul(base).saturating_add(digit);
    }
    Ok(value)
}

fn judged_address(field: &[u8]) -> Result<u64, Kind> {
    digits(field.strip_prefix(b"0x").ok_or("bad-field")?, 16)
}

fn judged_bytes(field: &[u8]) -> Result<(u64, usize), Kind> {
    if field.is_empty() || field.len() % 2 == 1 || field.iter().any(|&b| DIGITS[b as usize] > 15) {
        return Err("bad-field");
    }
    Ok((bytes(field).map_or(0, |(value, _, _)| value), field.len() / 2))
}

fn checked(ok: bool, kind: Kind) -> Result<(), Kind> {
    if ok { Ok(()) } else { Err(kind) }
}

fn in_range(addr: u64, len: u64) -> bool {
    (1..=4096).contains(&len) && addr <= PAST - len
}

fn judge(line: &[u8], newer: bool) -> Result<Event, Kind> {
    let mut fields: [&[u8]; 7] = [&[]; 7];
    let mut count = 0;
    for field in line.split(|&b| b == b' ') {
        if count < 7 {
            fields[count] = field;
        }
        count += 1;
    }
    let want = match fields[0] {
        b"store" | b"isPersist" => 4,
        b"clwb" | b"clflushopt" => 3,
        b"clflush" if newer => 3,
        b"sfence" => 2,
        b"mfence" if newer => 2,
        b"isOrderedBefore" => 6,
        _ => return Err("bad-word"),
    };
    checked(count == want, "bad-field")?;
    let thread = digits(fields[1], 10)?;
    let op = match fields[0] {
        b"store" => {
            let addr = judged_address(fields[2])?;
            let (value, len) = judged_bytes(fields[3])?;
            checked(thread < 256 && addr < PAST && len <= 8, "out-of-range")?;
            checked(addr as usize % 8 + len <= 8, "crosses-word")?;
            Op::Store(addr, value, len as u8)
        }
        b"isPersist" => {
            let (addr, len) = (judged_address(fields[2])?, digits(fields[3], 10)?);
            checked(thread < 256 && in_range(addr, len), "out-of-range")?;
            Op::IsPersist(Range(addr | len << 48))
        }
        b"isOrderedBefore" => {
            let (addr, len) = (judged_address(fields[2])?, digits(fields[3], 10)?);
            let (later, size) = (judged_address(fields[4])?, digits(fields[5], 10)?);
            checked(thread < 256 && in_range(addr, len) && in_range(later, size), "out-of-range")?;
            Op::IsOrderedBefore(Range(addr | len << 48), Range(later | size << 48))
        }
        b"sfence" | b"mfence" => {
            checked(thread < 256, "out-of-range")?;
            if fields[0] == b"sfence" { Op::Sfence } else { Op::Mfence }
        }
        word => {
            let addr = judged_address(fields[2])?;
            checked(thread < 256 && addr < PAST, "out-of-range")?;
            match word {
                b"clwb" => Op::Clwb(addr),
                b"clflushopt" => Op::ClflushOpt(addr),
                _ => Op::Clflush(addr),
            }
        }
    };
    Ok(Event { thread: thread as u8, op })
}

// ---- Texts

#[inline(never)]
fn read(text: &[u8]) -> Result<Trace, (usize, Kind)> {
    let split = |rest: &[u8]| rest.iter().position(|&b| b == b'\n');
    let end = split(text).ok_or((1, "truncated"))?;
    let header = &text[..end];
    let newer = matches!(header, b"pmtrace 2 32" | b"pmtrace 2 64" | b"pmtrace 2 128" | b"pmtrace 2 256");
    if !newer && header != b"pmtrace 1" {
        return Err((1, "bad-header"));
    }
    // A line has at least 9 bytes with its LF.
    let mut events = Vec::with_capacity((text.len() / 9).min(LIMIT));
    let mut rest = &text[end + 1..];
    while !rest.is_empty() {
        let number = events.len() + 2;
        let event = match plain_event(rest, newer) {
            Some((event, after)) => {
                rest = after;
                event
            }
            None => {
                let end = split(rest).ok_or((number, "truncated"))?;
                let event = judge(&rest[..end], newer).map_err(|kind| (number, kind))?;
                rest = &rest[end + 1..];
                event
            }
        };
        if events.len() == LIMIT {
            return Err((number, "too-many-events"));
        }
        events.push(event);
    }
    Ok(Trace { header: header.to_vec(), events })
}

/// A line that is being written, of at most 64 bytes.
struct Line {
    text: [u8; 64],
    len: usize,
}

impl Line {
    #[inline(always)]
    fn word(&mut self, word: &[u8]) {
        self.text[self.len..self.len + word.len()].copy_from_slice(word);
        self.len += word.len();
    }

    #[inline(always)]
    fn byte(&mut self, byte: u8) {
        self.text[self.len] = byte;
        self.len += 1;
    }

    #[inline(always)]
    fn decimal(&mut self, value: u64) {
        if value >= 1000 {
            self.byte(b'0' + (value / 1000) as u8);
        }
        if value >= 100 {
            self.byte(b'0' + (value / 100 % 10) as u8);
        }
        if value >= 10 {
            self.byte(b'0' + (value / 10 % 10) as u8);
        }
        self.byte(b'0' + (value % 10) as u8);
    }

    #[inline(always)]
    fn address(&mut self, addr: u64) {
        self.word(b" 0x");
        let mut digits = [0; 12];
        for i in 0..6 {
            let pair = PAIRS[(addr >> (40 - 8 * i)) as usize & 255];
            digits[2 * i] = pair[0];
            digits[2 * i + 1] = pair[1];
        }
        let count = (((63 - (addr | 1).leading_zeros()) / 4 + 1) as usize).min(12);
        self.word(&digits[12 - count..]);
    }

    #[inline(always)]
    fn range(&mut self, range: Range) {
        self.address(range.0 & (PAST - 1));
        self.byte(b' ');
        self.decimal(range.0 >> 48);
    }
}

#[inline(never)]
fn write(trace: &Trace) -> Vec<u8> {
    let mut out = Vec::with_capacity(trace.header.len() + 1 + 64 * trace.events.len());
    out.extend_from_slice(&trace.header);
    out.push(b'\n');
    for event in &trace.events {
        let mut line = Line { text: [0; 64], len: 0 };
        line.word(match event.op {
            Op::Store(..) => b"store ",
            Op::Clwb(_) => b"clwb ",
            Op::ClflushOpt(_) => b"clflushopt ",
            Op::Clflush(_) => b"clflush ",
            Op::Sfence => b"sfence ",
            Op::Mfence => b"mfence ",
            Op::IsPersist(..) => b"isPersist ",
            Op::IsOrderedBefore(..) => b"isOrderedBefore ",
        });
        line.decimal(event.thread as u64);
        match event.op {
            Op::Store(addr, value, len) => {
                line.address(addr);
                line.byte(b' ');
                for i in 0..len.min(8) {
                    line.word(&PAIRS[(value >> (8 * i)) as usize & 255]);
                }
            }
            Op::Clwb(addr) | Op::ClflushOpt(addr) | Op::Clflush(addr) => line.address(addr),
            Op::Sfence | Op::Mfence => {}
            Op::IsPersist(range) => line.range(range),
            Op::IsOrderedBefore(first, second) => {
                line.range(first);
                line.range(second);
            }
        }
        line.byte(b'\n');
        out.extend_from_slice(&line.text[..line.len]);
    }
    out
}

fn main() {
    let file = std::env::args().nth(1).expect("plain FILE");
    let text = std::fs::read(file).expect("the file can be read");
    let start = Instant::now();
    let trace = match read(&text) {
        Ok(trace) => trace,
        Err((line, kind)) => {
            eprintln!("trace line {line}: {kind}");
            std::process::exit(3);
        }
    };
    let read_seconds = start.elapsed().as_secs_f64();
    let start = Instant::now();
    let out = write(&trace);
    let write_seconds = start.elapsed().as_secs_f64();
    assert!(out == text, "the text is written as it was read");
    println!("read {read_seconds:.6} write {write_seconds:.6}");
}
