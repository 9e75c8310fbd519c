//! The built player program and the player of this crate against the model: random logs, each of them whole, cut into random
//! pieces and cut into single bytes.

mod common;

use std::collections::BTreeSet;
use std::fmt;
use std::io::Write;
use std::time::Instant;

use common::{Cut, compare, play_on_library, play_on_program, shrink};
use model::hub::Ring;
use model::log::{Desk, LARGEST_TOTAL};
use model::random_log::{Logs, Made};

/// The numbers that each kind can answer in a log, 0 where it is taken.
const POSSIBLE: [&[u32]; 12] = [
    &[0, 1],
    &[0, 3, 5, 10],
    &[0, 3, 4, 10],
    &[0, 3, 4, 10],
    &[0, 3, 4, 6, 7, 8, 10],
    &[0, 3, 4, 6, 7, 8, 10],
    &[0, 3, 4, 7, 8, 10],
    &[0, 3, 4, 7, 8, 10],
    &[0, 3, 4, 7, 8, 10],
    &[0, 3, 4, 7, 8, 10],
    &[0, 3, 4, 8, 10],
    &[0, 3, 4, 8, 9, 10],
];

/// What else is counted, and how often it must be seen in a million records.
const SEEN: [(&str, u64); 12] = [
    ("interrupts delivered", 70_000),
    ("interrupts that cleared a one-shot", 9_000),
    ("doorbells delivered", 12_000),
    ("State stores delivered to several", 3_500),
    ("resets delivered to several", 300),
    ("disconnects delivered to several", 300),
    ("records delivered to 63 others", 60),
    ("set-ups of just 32768 bytes taken", 1_500),
    ("set-ups of 36864 bytes refused", 700),
    ("logs that end inside a record", 35),
    ("logs that end with an unknown kind", 35),
    ("logs that end with a record", 80),
];

/// What a run has covered.
#[derive(Default)]
struct Counts {
    /// Records of each kind, by the number answered.
    records: [[u64; 12]; 12],
    seen: [u64; SEEN.len()],
    /// The numbers of peers of hubs that a record was taken on.
    hubs: BTreeSet<u64>,
}

impl Counts {
    fn total(&self) -> u64 {
        self.records.iter().flatten().sum()
    }

    fn add(&mut self, made: &Made) {
        made.written(|record, desk| self.add_record(record, desk));
        let ending = match made.tail.first() {
            Some(0..12) => 9,
            Some(_) => 10,
            None => 11,
        };
        self.seen[ending] += 1;
    }

    fn add_record(&mut self, record: &[u8], desk: &Desk) {
        let number = desk.refused.first().copied().unwrap_or_default();
        self.records[usize::from(record[0])][number as usize] += 1;
        if number == 0 {
            self.hubs.insert(desk.hub.numbers.peers);
        }
        let delivered = desk.rings.iter().filter(|ring| matches!(ring, Ring::Delivered(..))).count() as u64;
        let cleared = desk.rings.iter().filter(|ring| matches!(ring, Ring::Delivered(_, true))).count() as u64;
        let several = |kind: u8| u64::from(record[0] == kind && delivered > 1);
        let total = if record[0] == 0 { Some(numbers_total(record)) } else { None };
        let counts = [
            delivered,
            cleared,
            u64::from(record[0] == 7 && record[3] == 0x0c && delivered == 1),
            several(7),
            several(3),
            several(2),
            u64::from(delivered == 63),
            u64::from(total == Some(LARGEST_TOTAL) && number == 0),
            u64::from(total == Some(LARGEST_TOTAL + 4096) && number == 1),
        ];
        self.seen.iter_mut().zip(counts).for_each(|(seen, count)| *seen += count);
    }

    /// What is not covered often enough, or should never have been answered.
    fn gaps(&self, least: u64) -> Vec<String> {
        let mut gaps = Vec::new();
        for (kind, counts) in self.records.iter().enumerate() {
            for (number, &count) in (0..).zip(counts) {
                let possible = POSSIBLE[kind].contains(&number);
                if possible && count < least || !possible && count > 0 {
                    gaps.push(format!("kind {kind:02X} answered {number} {count} times"));
                }
            }
        }
        let few = SEEN.iter().zip(self.seen).filter(|((_, least), count)| count * 1_000_000 < least * self.total());
        gaps.extend(few.map(|((name, _), count)| format!("{name}: {count}")));
        gaps
    }
}

/// T of a set-up record.
fn numbers_total(record: &[u8]) -> u128 {
    let number = |at: usize, bytes: usize| {
        record[at..at + bytes].iter().rev().fold(0_u128, |number, byte| number << 8 | u128::from(*byte))
    };
    number(5, 4) + number(9, 8) + number(1, 2) * number(17, 8)
}

impl fmt::Display for Counts {
    fn fmt(&self, f: &mut fmt::Formatter<'_>) -> fmt::Result {
        write!(f, "{:<20} {:>8}", "record", "taken")?;
        for number in 1..11 {
            write!(f, " {:>6}", format!("no. {number}"))?;
        }
        writeln!(f)?;
        for (kind, counts) in ivshmem_log::Record::KINDS.iter().zip(&self.records) {
            write!(f, "{kind:<20} {:>8}", counts[0])?;
            for count in &counts[1..11] {
                match count {
                    0 => write!(f, " {:>6}", "-")?,
                    count => write!(f, " {count:>6}")?,
                }
            }
            writeln!(f)?;
        }
        writeln!(f, "records in all: {}", self.total())?;
        for ((name, _), count) in SEEN.iter().zip(self.seen) {
            writeln!(f, "{name:<40} {count:>8}")?;
        }
        write!(f, "numbers of peers of hubs that records were taken on: {}", self.hubs.len())
    }
}

fn check(plays: common::Plays<'_>, made: &Made, cut: Cut) {
    if compare(plays, made, cut).is_err() {
        panic!("{}", shrink(plays, made.clone(), cut).text);
    }
}

#[test]
fn players_and_model_agree() {
    const LOGS: u64 = 250;
    const RECORDS: usize = 4_000;
    let start = Instant::now();
    let mut counts = Counts::default();
    let mut logs = Logs::new(11, 64);
    for at in 0..LOGS {
        let made = logs.next(RECORDS);
        for cut in [Cut::Whole, Cut::Pieces(at), Cut::Bytes] {
            check(&play_on_program, &made, cut);
            check(&play_on_library, &made, cut);
        }
        counts.add(&made);
    }
    let _ = writeln!(std::io::stdout().lock(), "{counts}\n{:.1} s", start.elapsed().as_secs_f64());
    assert_eq!(counts.gaps(60), Vec::<String>::new());
    for taken in counts.records.map(|kind| kind[0]) {
        assert!(taken >= 2_000, "{taken} records of a kind taken");
    }
    // Of 2 to 64.
    assert!(counts.hubs.len() >= 60);
}
