//! The reader of the old server's messages in plain Rust, as one would write it: the first fault ends the checks.

use ivshmem_protocol::raw::{Answer, Progress};
use ivshmem_protocol::{HELD_BYTES, IDS, MAX_VECTORS, RECORD_BYTES};

/// What is due.
const VERSION: u32 = 0;
const ID: u32 = 1;
const MEMORY: u32 = 2;
const PEERS: u32 = 3;
const CLOSED: u32 = 4;

/// What the library's call does, with the same checks, lent the same memory.
pub fn read(progress: Progress, counts: &mut [u8], vectors: u64, input: &[u8]) -> Answer {
    if !(1..=MAX_VECTORS).contains(&vectors) {
        return Answer { number: 1, progress, ..Answer::default() };
    }
    if counts.len() != IDS {
        return Answer { number: 2, progress, ..Answer::default() };
    }
    if !is_good(&progress, counts, vectors) {
        return Answer { number: 10, progress, ..Answer::default() };
    }
    let held = progress.held;
    if held + input.len() < RECORD_BYTES {
        return hold(progress, input);
    }
    let taken = RECORD_BYTES - held;
    let mut record = [0; RECORD_BYTES];
    record[..held].copy_from_slice(&progress.bytes[..held]);
    record[held..].copy_from_slice(&input[..taken]);
    Answer { taken, ..hear(&progress, counts, vectors, record) }
}

/// Every clause of number 10.
fn is_good(progress: &Progress, counts: &[u8], vectors: u64) -> bool {
    let Progress { due, own, held, .. } = *progress;
    if due > CLOSED || own as usize >= IDS || held > HELD_BYTES {
        return false;
    }
    if counts.iter().any(|&count| u64::from(count) > vectors) {
        return false;
    }
    match due {
        VERSION | ID => own == 0 && !counts.iter().any(|&count| count != 0),
        MEMORY => !counts.iter().any(|&count| count != 0),
        _ => true,
    }
}

/// The input is no whole record, with what is held before it.
fn hold(mut progress: Progress, input: &[u8]) -> Answer {
    let held = progress.held;
    progress.bytes[held..held + input.len()].copy_from_slice(input);
    progress.held += input.len();
    Answer { taken: input.len(), progress, ..Answer::default() }
}

/// What a whole record says, and what stays of it.
fn hear(progress: &Progress, counts: &mut [u8], vectors: u64, record: [u8; RECORD_BYTES]) -> Answer {
    let Progress { mut due, mut own, .. } = *progress;
    let [kind, number @ ..] = record;
    let (message, id, count) = match (due, kind, i64::from_le_bytes(number)) {
        (VERSION, 0, 0) => {
            due = ID;
            (1, 0, 0)
        }
        (ID, 0, id @ 0..=63) => {
            (due, own) = (MEMORY, id as u32);
            (2, own, 0)
        }
        (MEMORY, 1, -1) => {
            due = PEERS;
            (3, 0, 0)
        }
        (PEERS, 1, id @ 0..=63) => {
            let count = &mut counts[id as usize];
            let room = u64::from(*count) < vectors;
            *count += u8::from(room);
            (if room { 4 } else { 5 }, id as u32, u32::from(*count))
        }
        (PEERS, 0, id @ 0..=63) if id != i64::from(own) && counts[id as usize] > 0 => {
            counts[id as usize] = 0;
            (6, id as u32, 0)
        }
        _ => {
            due = CLOSED;
            (7, 0, 0)
        }
    };
    let progress = Progress { due, own, ..Progress::default() };
    Answer { message, id, count, progress, ..Answer::default() }
}
