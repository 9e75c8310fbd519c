//! The linked library against the model, without chance: all records of a range at every step, and all small changes to a state.

use std::io::Write;

use ivshmem_protocol::raw::{self, Progress};
use protocol_model::compare::{self, Call};
use protocol_model::reader::{IDS, State};

const VECTORS: u64 = 3;

/// A state at this step; with peers, some have vectors.
fn state(due: u32) -> State {
    let mut state = State::start();
    state.progress.due = due;
    if due >= 2 {
        state.progress.own = 5;
    }
    if due >= 3 {
        for (id, count) in [(0, 3), (5, 2), (6, 1), (7, 3), (63, 1)] {
            state.counts[id] = count;
        }
    }
    state
}

/// Makes the call on both sides; whether it is taken.
fn agree(state: &State, vectors: u64, input: &[u8]) -> bool {
    match compare::call(raw::read, &Call { state, vectors, input }) {
        Ok((answer, _)) => answer.number == 0,
        Err(text) => panic!("{state:?}, {vectors} vectors, {input:?}: {text}"),
    }
}

#[test]
fn every_record_of_a_range() {
    let far = [0, 8, 16, 31, 32, 33, 48, 56, 62, 63].map(|bit| 1i64 << bit);
    let numbers: Vec<_> = (-130..300).chain(far.iter().flat_map(|high| (-2..70).map(move |low| high ^ low))).collect();
    let mut calls = 0;
    for (due, kind) in (0..=4).flat_map(|due| (0..=255).map(move |kind| (due, kind))) {
        let state = state(due);
        for number in &numbers {
            let input = [&[kind][..], &number.to_le_bytes()].concat();
            assert!(agree(&state, VECTORS, &input));
            calls += 1;
        }
    }
    // Printed past the test's capture, so that every run shows it.
    let _ = writeln!(std::io::stdout().lock(), "edges: {calls} records at all steps");
    assert!(calls >= 1_000_000);
}

/// Every length of held bytes and of input, at every step.
#[test]
fn every_cut_of_a_record() {
    for (due, held) in (0..=4).flat_map(|due| (0..=8).map(move |held| (due, held))) {
        let mut state = state(due);
        (state.progress.held, state.progress.bytes) = (held, [1, 6, 0, 0, 0, 0, 0, 0]);
        for length in 0..40 {
            assert!(agree(&state, VECTORS, &vec![0; length]));
            assert!(agree(&state, VECTORS, &vec![0xff; length]));
        }
    }
}

#[test]
fn every_bit_changed() {
    let (mut taken, mut refused) = (0, 0);
    for due in 0..=4 {
        for (bit, held) in (0..8 * (24 + IDS)).flat_map(|bit| [0, 4, 8].map(|held| (bit, held))) {
            let mut state = state(due);
            state.progress.held = held;
            let flipped = 1u8 << (bit % 8);
            let Progress { due, own, held, bytes } = &mut state.progress;
            match bit / 8 {
                0..4 => *due ^= 1 << bit,
                4..8 => *own ^= 1 << (bit - 32),
                8..16 => *held ^= 1 << (bit - 64),
                16..24 => bytes[bit / 8 - 16] ^= flipped,
                place => state.counts[place - 24] ^= flipped,
            }
            for input in [&[][..], &[0; 5], &[1; 9], &[0; 12]] {
                *(if agree(&state, VECTORS, input) { &mut taken } else { &mut refused }) += 1;
            }
        }
    }
    let _ = writeln!(std::io::stdout().lock(), "edges: {taken} states with a bit changed taken, {refused} refused");
    assert!(taken >= 5_000 && refused >= 20_000);
}

#[test]
fn every_small_number() {
    for due in 0..=4 {
        let state = state(due);
        for number in 0..300 {
            let vectors_taken = agree(&state, number, &[0; 9]);
            assert_eq!(vectors_taken, (1..=16).contains(&number) && (due < 3 || number >= 3));
            let counts = vec![0; number as usize];
            assert_eq!(agree(&State { counts, ..state.clone() }, VECTORS, &[0; 9]), number == 64);
            let progress = Progress { held: number as usize, ..state.progress };
            assert_eq!(agree(&State { progress, ..state.clone() }, VECTORS, &[0; 9]), number <= 8);
            let progress = Progress { own: number as u32, ..state.progress };
            let own_taken = agree(&State { progress, ..state.clone() }, VECTORS, &[0; 9]);
            assert_eq!(own_taken, number == 0 || (number < 64 && due >= 2));
        }
        for step in 0..300 {
            let progress = Progress { due: step, ..State::start().progress };
            assert_eq!(agree(&State { progress, ..State::start() }, VECTORS, &[0; 9]), step <= 4);
        }
    }
}
