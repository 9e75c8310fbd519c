//! Times a case on the library and on the yardsticks, in turn and in short pieces, so that all see the same machine.

use std::borrow::BorrowMut;
use std::hint::black_box;
use std::time::{Duration, Instant};

use ivshmem::{Delivery, MAX_PEERS};
use model::subject::Answer;

use crate::cases::{Case, ROUND, SHARED_BYTES};
use crate::device::{Device, Lending, Library, Nothing};
use crate::state::Form;
use crate::yardstick::{PlainStruct, WordsAccumulating, WordsEarlyExit, WordsSpecialised};

/// The yardsticks, in the order of the ratios.
pub const YARDSTICKS: [&str; 4] = ["plain", "words, early exit", "words, accumulating", "a copy for each V"];

/// How often everything is measured; the table shows medians.
pub const PASSES: usize = 5;
pub type Lowered = fn(&mut dyn FnMut() -> Duration) -> Duration;

/// How far the stack is lowered. A call's time depends on where its frames stand in cache lines and pages, so a measurement is
/// the mean over these, which are spread over a page and over all places in a line; for each the median of so many pieces.
#[rustfmt::skip]
pub const POSITIONS: [Lowered; 16] = [
    lowered::<16>, lowered::<288>, lowered::<560>, lowered::<832>,
    lowered::<1104>, lowered::<1376>, lowered::<1648>, lowered::<1920>,
    lowered::<2192>, lowered::<2464>, lowered::<2736>, lowered::<3008>,
    lowered::<3280>, lowered::<3552>, lowered::<3824>, lowered::<4096>,
];
pub const PIECES: usize = 15;
/// How long a piece takes at the library's speed.
const PIECE: Duration = Duration::from_micros(250);

/// Nanoseconds of a call in one pass: the library's, then each yardstick's. An empty call has its own alone.
pub type Pass = Vec<f64>;

/// The medians of all passes over a case.
pub struct Row {
    pub name: String,
    /// Calls of one measurement.
    pub calls: usize,
    pub nanoseconds: f64,
    /// The library's time by each yardstick's; none for an empty call.
    pub ratios: Vec<f64>,
    /// How far the passes lie apart: the largest difference between two ratios to one yardstick, by their median.
    pub spread: Option<f64>,
}

impl Row {
    #[must_use]
    pub fn new(name: &str, calls: usize, passes: &[Pass]) -> Row {
        let ratios_to = |yardstick: usize| passes.iter().map(|pass| pass[0] / pass[yardstick]).collect::<Vec<_>>();
        let spread = |yardstick: usize| {
            let all = ratios_to(yardstick);
            let (least, most) = all.iter().fold((f64::MAX, 0.0), |(l, m), &r| (r.min(l), r.max(m)));
            (most - least) / median(all)
        };
        let yardsticks = 1..passes[0].len();
        Row {
            name: name.into(),
            calls,
            nanoseconds: median(passes.iter().map(|pass| pass[0]).collect()),
            ratios: yardsticks.clone().map(|yardstick| median(ratios_to(yardstick))).collect(),
            spread: yardsticks.map(spread).max_by(f64::total_cmp),
        }
    }
}

/// The memory that a device works on, and what it has left in it.
struct Bench<D: Device> {
    hubs: Vec<<D::Hub as Form>::Owned>,
    /// Which list of calls is next.
    turn: usize,
    region: Vec<u8>,
    table: [Delivery; MAX_PEERS],
    buffer: [u8; SHARED_BYTES],
}

/// All that can be seen of a round: answers, hubs, region, table and buffer.
#[derive(PartialEq)]
struct Trace {
    answers: Vec<Answer>,
    hubs: Vec<Vec<u32>>,
    region: Vec<u8>,
    table: [Delivery; MAX_PEERS],
    buffer: [u8; SHARED_BYTES],
}

trait Timed {
    fn time(&mut self, case: &Case, rounds: u32) -> Duration;
    /// Two rounds without a clock, or one where a second would be refused.
    fn trace(&mut self, case: &Case) -> Trace;
}

impl<D: Device> Bench<D> {
    fn new(case: &Case) -> Bench<D> {
        let mut bench = Bench {
            hubs: Vec::new(),
            turn: 0,
            region: vec![0; case.region_bytes],
            table: [Delivery::default(); MAX_PEERS],
            buffer: std::array::from_fn(|at| at as u8 + 1),
        };
        bench.restore(case);
        bench
    }

    fn restore(&mut self, case: &Case) {
        self.hubs.clear();
        self.hubs.extend(case.hubs.iter().map(|words| D::Hub::owned(words)));
    }

    // The answer is looked at where it stands: copied, it would cost what no host has to pay.
    fn round(&mut self, case: &Case, mut answered: impl FnMut(&Answer)) {
        let calls = &case.calls[self.turn];
        self.turn = 1 - self.turn;
        for (hub, call) in self.hubs.iter_mut().zip(calls) {
            let lending = Lending { region: &mut self.region, table: &mut self.table, buffer: &mut self.buffer };
            answered(&D::perform(black_box(hub.borrow_mut()), black_box(call), lending));
        }
    }
}

impl<D: Device> Timed for Bench<D> {
    fn time(&mut self, case: &Case, rounds: u32) -> Duration {
        let mut taken = Duration::ZERO;
        let (stretches, rounds) = if case.repeatable { (1, rounds) } else { (rounds, 1) };
        for _ in 0..stretches {
            if !case.repeatable {
                self.restore(case);
            }
            let start = Instant::now();
            for _ in 0..rounds {
                self.round(case, |answer| {
                    black_box(answer);
                });
            }
            taken += start.elapsed();
        }
        taken
    }

    fn trace(&mut self, case: &Case) -> Trace {
        let mut answers = Vec::new();
        for _ in 0..if case.repeatable { 2 } else { 1 } {
            self.round(case, |answer| answers.push(*answer));
        }
        Trace {
            answers,
            hubs: self.hubs.iter().map(D::Hub::words).collect(),
            region: self.region.clone(),
            table: self.table,
            buffer: self.buffer,
        }
    }
}

/// The library first, then the yardsticks; for an empty call what does nothing.
fn benches(case: &Case) -> Vec<Box<dyn Timed>> {
    if case.empty {
        return vec![Box::new(Bench::<Nothing>::new(case))];
    }
    vec![
        Box::new(Bench::<Library>::new(case)),
        Box::new(Bench::<PlainStruct>::new(case)),
        Box::new(Bench::<WordsEarlyExit>::new(case)),
        Box::new(Bench::<WordsAccumulating>::new(case)),
        Box::new(Bench::<WordsSpecialised>::new(case)),
    ]
}

/// Ends the program where a yardstick does not leave what the library leaves, or the case is not what its name says.
fn check(case: &Case) {
    let traces: Vec<Trace> = benches(case).iter_mut().map(|bench| bench.trace(case)).collect();
    for answer in &traces[0].answers {
        assert_eq!((answer.number, answer.count), (case.number, case.deliveries), "{}", case.name);
    }
    for (name, trace) in YARDSTICKS.iter().zip(&traces[1..]) {
        assert!(*trace == traces[0], "{}: {name} differs from the library", case.name);
    }
}

/// How many rounds are made in one piece, by the time that some of them take.
pub fn rounds_of_piece(mut time: impl FnMut(u32) -> Duration) -> u32 {
    const TRIAL: u32 = 100;
    // The shortest trial is one in which nothing else ran.
    let trial = (0..8).map(|_| time(TRIAL)).min().unwrap_or_default();
    (PIECE.as_nanos() * u128::from(TRIAL) / trial.as_nanos().max(1)).max(1) as u32
}

/// How many rounds the library makes in one piece.
fn rounds(case: &Case) -> u32 {
    let bench = &mut benches(case)[0];
    rounds_of_piece(|rounds| bench.time(case, rounds))
}

/// Does the work with the stack so many bytes lower.
#[inline(never)]
fn lowered<const BYTES: usize>(work: &mut dyn FnMut() -> Duration) -> Duration {
    let room = black_box([0u8; BYTES]);
    let taken = work();
    black_box(&room);
    taken
}

#[must_use]
pub fn median(mut values: Vec<f64>) -> f64 {
    values.sort_by(f64::total_cmp);
    values[values.len() / 2]
}

/// Lets the sides take so many turns at each place of the stack, each turn begun once for all of them. The nanoseconds of each:
/// the sum over the places of the median turn there.
pub fn take_turns<S>(
    sides: &mut [S],
    turns: usize,
    mut begin: impl FnMut(),
    mut time: impl FnMut(&mut S) -> Duration,
) -> Vec<f64> {
    let mut sums = vec![0.0; sides.len()];
    for position in POSITIONS {
        let mut taken = vec![Vec::new(); sides.len()];
        for _ in 0..turns {
            begin();
            for (side, taken) in sides.iter_mut().zip(&mut taken) {
                taken.push(position(&mut || time(side)).as_nanos() as f64);
            }
        }
        for (sum, taken) in sums.iter_mut().zip(taken) {
            *sum += median(taken);
        }
    }
    sums
}

/// The passes over each case. Every pass has all cases.
pub fn in_passes<C>(cases: &[C], mut pass: impl FnMut(&C) -> Pass) -> Vec<Vec<Pass>> {
    let mut passes = vec![Vec::new(); cases.len()];
    for _ in 0..PASSES {
        for (passes, case) in passes.iter_mut().zip(cases) {
            passes.push(pass(case));
        }
    }
    passes
}

fn measure(case: &Case, rounds: u32) -> Pass {
    let mut benches = benches(case);
    for bench in &mut benches {
        bench.time(case, 1 + rounds / 4);
    }
    let sums = take_turns(&mut benches, PIECES, || (), |bench| bench.time(case, rounds));
    let calls = f64::from(rounds) * (ROUND * POSITIONS.len()) as f64;
    sums.into_iter().map(|sum| sum / calls).collect()
}

/// Checks the cases, then measures all of them in every pass.
#[must_use]
pub fn measure_all(cases: &[Case]) -> Vec<Row> {
    cases.iter().for_each(check);
    let timed: Vec<_> = cases.iter().map(|case| (case, rounds(case))).collect();
    let passes = in_passes(&timed, |(case, rounds)| measure(case, *rounds));
    let calls = |rounds: u32| rounds as usize * ROUND * PIECES * POSITIONS.len();
    let rows = timed.iter().zip(&passes);
    rows.map(|((case, rounds), passes)| Row::new(&case.name, calls(*rounds), passes)).collect()
}
