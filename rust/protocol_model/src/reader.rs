//! The model: what a reader has to do, on plain values.

use std::collections::VecDeque;

use ivshmem_protocol::raw::{Answer, Progress};

/// The own id and the peers' ids are below this; there are as many counts.
pub const IDS: usize = 64;
/// The most vectors that a reader is configured for.
pub const MAX_VECTORS: u64 = 16;
/// Bytes of a record.
pub const RECORD: usize = 9;

/// Steps of the protocol, as they are numbered.
pub const VERSION_DUE: u32 = 0;
pub const ID_DUE: u32 = 1;
pub const MEMORY_DUE: u32 = 2;
pub const PEERS: u32 = 3;
pub const CLOSED: u32 = 4;

/// What a record means.
#[derive(Clone, Copy, Debug, PartialEq, Eq)]
pub enum Said {
    More,
    Version,
    Id(usize),
    Memory,
    Vector(usize, u8),
    Extra(usize, u8),
    Disconnected(usize),
    Closed,
}

/// Why a progress record with its counts is none.
#[derive(Clone, Copy, Debug, PartialEq, Eq)]
pub enum Fault {
    UnknownStep,
    OwnAboveLast,
    TooManyHeld,
    CountAboveConfigured,
    OwnBeforeItsTime,
    CountBeforeItsTime,
}

/// What a reader knows.
#[derive(Clone, Debug, PartialEq, Eq)]
pub struct State {
    pub progress: Progress,
    pub counts: Vec<u8>,
}

impl State {
    /// Nothing is known.
    pub fn start() -> State {
        State { progress: Progress::default(), counts: vec![0; IDS] }
    }

    /// All that is wrong with this state, in the order of the rules.
    pub fn faults(&self, vectors: u64) -> Vec<Fault> {
        let Progress { due, own, held, .. } = self.progress;
        let some_count = self.counts.iter().any(|&count| count != 0);
        let all = [
            (due > CLOSED, Fault::UnknownStep),
            (own >= IDS as u32, Fault::OwnAboveLast),
            (held >= RECORD, Fault::TooManyHeld),
            (self.counts.iter().any(|&count| u64::from(count) > vectors), Fault::CountAboveConfigured),
            (own != 0 && matches!(due, VERSION_DUE | ID_DUE), Fault::OwnBeforeItsTime),
            (some_count && matches!(due, VERSION_DUE | ID_DUE | MEMORY_DUE), Fault::CountBeforeItsTime),
        ];
        all.into_iter().filter_map(|(wrong, fault)| wrong.then_some(fault)).collect()
    }

    /// The numbers of all refusals that apply, the one that is given first.
    pub fn refusals(&self, vectors: u64) -> Vec<u32> {
        let all = [
            (vectors == 0 || vectors > MAX_VECTORS, 1),
            (self.counts.len() != IDS, 2),
            (!self.faults(vectors).is_empty(), 10),
        ];
        all.into_iter().filter_map(|(refused, number)| refused.then_some(number)).collect()
    }

    /// Reads as far as the first whole record goes: what it says, and the bytes that were taken.
    ///
    /// # Errors
    /// The number of the refusal.
    pub fn read(&mut self, vectors: u64, input: &[u8]) -> Result<(Said, usize), u32> {
        if let Some(&number) = self.refusals(vectors).first() {
            return Err(number);
        }
        let held = self.progress.held;
        if held + input.len() < RECORD {
            self.progress.bytes[held..held + input.len()].copy_from_slice(input);
            self.progress.held += input.len();
            return Ok((Said::More, input.len()));
        }
        let (kind, number) = first_record(&self.progress, input);
        (self.progress.held, self.progress.bytes) = (0, [0; 8]);
        Ok((self.hear(vectors, kind, number), RECORD - held))
    }

    /// A whole record comes.
    fn hear(&mut self, vectors: u64, kind: u8, number: i64) -> Said {
        let said = match (self.progress.due, kind, number) {
            (VERSION_DUE, 0, 0) => Said::Version,
            (ID_DUE, 0, 0..=63) => Said::Id(number as usize),
            (MEMORY_DUE, 1, -1) => Said::Memory,
            (PEERS, 1, 0..=63) => match self.counts[number as usize] {
                count if u64::from(count) < vectors => Said::Vector(number as usize, count + 1),
                count => Said::Extra(number as usize, count),
            },
            (PEERS, 0, 0..=63) if self.is_another_with_vectors(number as usize) => Said::Disconnected(number as usize),
            _ => Said::Closed,
        };
        self.keep(said);
        said
    }

    fn is_another_with_vectors(&self, id: usize) -> bool {
        id != self.progress.own as usize && self.counts[id] > 0
    }

    /// What stays of a message.
    fn keep(&mut self, said: Said) {
        match said {
            Said::Version => self.progress.due = ID_DUE,
            Said::Id(id) => (self.progress.own, self.progress.due) = (id as u32, MEMORY_DUE),
            Said::Memory => self.progress.due = PEERS,
            Said::Vector(id, count) => self.counts[id] = count,
            Said::Disconnected(id) => self.counts[id] = 0,
            Said::Closed => self.progress.due = CLOSED,
            Said::More | Said::Extra(..) => {}
        }
    }
}

/// Kind and number of the first record, of which there are enough bytes.
fn first_record(progress: &Progress, input: &[u8]) -> (u8, i64) {
    let held = progress.bytes[..progress.held].iter();
    let mut bytes: VecDeque<u8> = held.chain(input).copied().take(RECORD).collect();
    let kind = bytes.pop_front().expect("a kind");
    let number = bytes.into_iter().rev().fold(0u64, |number, byte| number << 8 | u64::from(byte));
    (kind, number.cast_signed())
}

/// Kind and number of the record that a call would end; nothing where it is refused, or ends none.
pub fn ended_record(state: &State, vectors: u64, input: &[u8]) -> Option<(u8, i64)> {
    let whole = state.refusals(vectors).is_empty() && state.progress.held + input.len() >= RECORD;
    whole.then(|| first_record(&state.progress, input))
}

/// The model in the form of the library's call.
pub fn read(progress: Progress, counts: &mut [u8], vectors: u64, input: &[u8]) -> Answer {
    let mut state = State { progress, counts: counts.to_vec() };
    let (number, said, taken) = match state.read(vectors, input) {
        Ok((said, taken)) => (0, said, taken),
        Err(number) => (number, Said::More, 0),
    };
    let (message, id, count) = match said {
        Said::More => (0, 0, 0),
        Said::Version => (1, 0, 0),
        Said::Id(id) => (2, id, 0),
        Said::Memory => (3, 0, 0),
        Said::Vector(id, count) => (4, id, count),
        Said::Extra(id, count) => (5, id, count),
        Said::Disconnected(id) => (6, id, 0),
        Said::Closed => (7, 0, 0),
    };
    counts.copy_from_slice(&state.counts);
    Answer { number, message, id: id as u32, count: count.into(), taken, progress: state.progress }
}
