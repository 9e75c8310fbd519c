//! Times the reader of the old server's messages beside two readers in Rust: that of [`plain_reader`] and the independent model.
//! All are called through a pointer, with the same values and the same memory. They take turns, a stretch of the stream each,
//! and a pass is spread over the same places of the stack as in [`measure`](crate::measure).

use std::cell::Cell;
use std::hint::black_box;
use std::time::{Duration, Instant};

use ivshmem_protocol::raw::{self, Answer, Progress};
use ivshmem_protocol::{IDS, MAX_VECTORS, RECORD_BYTES, record};
use model::random::Random;
use protocol_model::Reading;
use protocol_model::reader::{self, PEERS, State};

use crate::measure::{POSITIONS, Pass, Row, in_passes, take_turns};
use crate::plain_reader;

/// The yardsticks, in the order of the ratios.
pub const YARDSTICKS: [&str; 2] = ["plain", "model"];

/// Records of the stream that is timed.
pub const RECORDS: usize = 1_000_000;
/// Where a record is nine calls, so many times fewer are read.
const FEWER: usize = 10;
/// How often the readers take turns at each place of the stack.
const TURNS: usize = 25;

/// The own id of the stream, and how seldom a peer with vectors leaves when it is picked: once in so many times.
const OWN: usize = 5;
const LEAVES: u64 = 20;

/// So many records of one connection, all of them in place: the start, then vectors, vectors above the configured number, and
/// peers that leave, over all ids.
#[must_use]
pub fn stream(records: usize) -> Vec<u8> {
    let mut random = Random::new(17);
    let mut present = [false; IDS];
    let mut stream = [record(false, 0), record(false, OWN as i64), record(true, -1)].concat();
    while stream.len() < records * RECORD_BYTES {
        let id = random.below(IDS as u64) as usize;
        let leaves = id != OWN && present[id] && random.chance(1, LEAVES);
        present[id] = !leaves;
        stream.extend(record(!leaves, id as i64));
    }
    stream
}

/// A row of the table.
pub struct Case<'a> {
    pub name: &'static str,
    pub stream: &'a [u8],
    /// The most bytes that are lent to a call.
    pub lent: usize,
    pub start: State,
    pub vectors: u64,
    /// The number that all calls answer.
    pub number: u32,
    /// Nothing is read, so that the time is that of the harness.
    pub empty: bool,
}

/// All rows over a stream.
#[must_use]
pub fn cases(stream: &[u8]) -> Vec<Case<'_>> {
    let whole = || Case {
        name: "whole records of nine bytes",
        stream,
        lent: RECORD_BYTES,
        start: State::start(),
        vectors: MAX_VECTORS,
        number: 0,
        empty: false,
    };
    let fewer = stream.len() / RECORD_BYTES / FEWER * RECORD_BYTES;
    vec![
        Case { name: "empty call", empty: true, ..whole() },
        whole(),
        Case { name: "one piece, read to its end", lent: usize::MAX, ..whole() },
        Case { name: "pieces of 1 byte, nine calls each", lent: 1, stream: &stream[..fewer], ..whole() },
        Case { name: "refused with 10, count 63 above V", start: too_many_at_63(), number: 10, ..whole() },
        Case { name: "refused with 1", vectors: MAX_VECTORS + 1, number: 1, ..whole() },
    ]
}

/// A state that is in order but for the last count.
fn too_many_at_63() -> State {
    let progress = Progress { due: PEERS, own: OWN as u32, ..Progress::default() };
    let mut counts = vec![MAX_VECTORS as u8; IDS];
    counts[IDS - 1] += 1;
    State { progress, counts }
}

/// How far a case's stream is read, and what is known there.
pub struct Way<'a> {
    case: &'a Case<'a>,
    at: usize,
    state: State,
}

impl<'a> Way<'a> {
    #[must_use]
    pub fn new(case: &'a Case<'a>) -> Way<'a> {
        Way { case, at: 0, state: case.start.clone() }
    }

    #[must_use]
    pub fn is_at_end(&self) -> bool {
        self.at >= self.case.stream.len()
    }

    /// Makes the next call. Behind one that is refused, the next record is lent.
    #[inline(always)]
    pub fn call(&mut self, read: impl FnOnce(Progress, &mut [u8], u64, &[u8]) -> Answer) -> Answer {
        let Case { stream, lent, vectors, .. } = *self.case;
        let rest = &stream[self.at..];
        let answer = read(self.state.progress, &mut self.state.counts, vectors, &rest[..rest.len().min(lent)]);
        self.state.progress = answer.progress;
        self.at += if answer.number == 0 { answer.taken } else { RECORD_BYTES };
        answer
    }

    /// Reads up to this place; the time that it takes.
    fn time(&mut self, reading: Reading, end: usize) -> Duration {
        let reading = black_box(reading);
        let start = Instant::now();
        while self.at < end {
            let _ = self.call(reading);
        }
        start.elapsed()
    }
}

/// Takes a record, and does nothing with it.
fn nothing(progress: Progress, _: &mut [u8], _: u64, input: &[u8]) -> Answer {
    Answer { taken: input.len().min(RECORD_BYTES), progress, ..Answer::default() }
}

/// The library first, then the yardsticks; for an empty call what does nothing.
fn readings(case: &Case<'_>) -> Vec<Reading> {
    if case.empty { vec![nothing] } else { vec![raw::read, plain_reader::read, reader::read] }
}

/// Reads the whole stream by the library and the yardsticks. How often each message came, by its number.
///
/// # Panics
/// Where a yardstick does not answer and leave what the library does at some call, or the case is not what its name says.
#[must_use]
pub fn check(case: &Case<'_>) -> [usize; 8] {
    let (readings, mut seen) = (readings(case), [0; 8]);
    let mut library = Way::new(case);
    let mut yardsticks: Vec<_> = readings[1..].iter().map(|_| Way::new(case)).collect();
    while !library.is_at_end() {
        let answer = library.call(readings[0]);
        assert_eq!(answer.number, case.number, "{}", case.name);
        for ((way, reading), name) in yardsticks.iter_mut().zip(&readings[1..]).zip(YARDSTICKS) {
            let same = way.call(reading) == answer && way.state == library.state;
            assert!(same, "{}: {name} differs from the library before byte {}", case.name, library.at);
        }
        seen[answer.message as usize] += 1;
    }
    assert_eq!(seen[7], 0, "{}: a record is not in place", case.name);
    seen
}

/// Nanoseconds of a record by each reader in one pass: the mean over the places of the stack, at each the median stretch.
fn pass(case: &Case<'_>) -> Pass {
    let stretch = case.stream.len() / RECORD_BYTES / POSITIONS.len() / TURNS;
    let mut ways: Vec<_> = readings(case).into_iter().map(|reading| (reading, Way::new(case))).collect();
    let end = Cell::new(0);
    let begin = || {
        let from = end.get();
        end.set(from + stretch * RECORD_BYTES);
        // The stretch is as near to the first reader as to the others.
        black_box(case.stream[from..end.get()].iter().fold(0, |all, byte| all ^ byte));
    };
    let sums = take_turns(&mut ways, TURNS, begin, |(reading, way)| way.time(*reading, end.get()));
    sums.into_iter().map(|sum| sum / (stretch * POSITIONS.len()) as f64).collect()
}

/// Measures all rows in every pass.
#[must_use]
pub fn measure_all(cases: &[Case<'_>]) -> Vec<Row> {
    let passes = in_passes(cases, pass);
    let rows = cases.iter().zip(&passes);
    rows.map(|(case, passes)| Row::new(case.name, case.stream.len() / RECORD_BYTES, passes)).collect()
}
