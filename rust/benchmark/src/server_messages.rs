//! Times the server's side of the old protocol beside those of [`plain_server`]: joins and leaves on one state, over and over, with
//! the same values and the same memory. All are called through pointers and take turns, a piece each, and a pass is spread over
//! the same places of the stack as in [`measure`](crate::measure).

use std::hint::black_box;
use std::time::{Duration, Instant};

use ivshmem_protocol::raw::{Served, Server};
use ivshmem_protocol::{BUFFER_BYTES, MAX_VECTORS};
use protocol_model::Serving;
use protocol_model::server::Act;

use crate::measure::{PIECES, POSITIONS, Pass, Row, in_passes, rounds_of_piece, take_turns};
use crate::plain_server::{self, BY_BITS, PLAIN};

/// The yardsticks, in the order of the ratios.
pub const YARDSTICKS: [&str; 2] = ["plain", "by bits"];

/// How many are joined beside who joins, and with how many vectors each.
const OTHERS: [u32; 4] = [0, 1, 4, 63];
const VECTORS: [u64; 3] = [1, 4, MAX_VECTORS];
/// Who leaves has so many vectors; no message depends on it.
const LEAVING: u64 = 4;

/// A row of the table.
pub struct Case {
    pub name: String,
    pub server: Server,
    pub act: Act,
    /// Bytes of the buffer.
    pub room: usize,
    /// The number that all calls answer, and how many messages they write.
    pub number: u32,
    pub messages: usize,
    /// Nothing is done, so that the time is that of the harness.
    pub empty: bool,
}

impl Case {
    fn new(name: String, server: Server, act: Act, messages: usize) -> Case {
        Case { name, server, act, room: BUFFER_BYTES, number: 0, messages, empty: false }
    }

    /// A call that is refused with this number, lent so many bytes.
    fn refused(act: Act, server: Server, room: usize, number: u32) -> Case {
        let kind = if act == Act::Join { "join" } else { "leave" };
        Case { number, room, ..Case::new(format!("{kind}: refused with {number}"), server, act, 0) }
    }
}

/// The ids below this, all joined.
fn first(ids: u32) -> u64 {
    u64::MAX.checked_shr(u64::BITS - ids).unwrap_or_default()
}

fn join(others: u32, vectors: u64) -> Case {
    let messages = 3 + (2 * others as usize + 1) * vectors as usize;
    let name = format!("join: others {others}, vectors {vectors}, messages {messages}");
    Case::new(name, Server { joined: first(others), vectors }, Act::Join, messages)
}

fn leave(remaining: u32) -> Case {
    let server = Server { joined: first(remaining + 1), vectors: LEAVING };
    let name = format!("leave: remaining {remaining}, messages {remaining}");
    Case::new(name, server, Act::Leave(u64::from(remaining) / 2), remaining as usize)
}

/// All rows.
#[must_use]
pub fn cases() -> Vec<Case> {
    let (full, none) = (Server { joined: u64::MAX, vectors: LEAVING }, Server { joined: 1, vectors: 0 });
    let mut cases = vec![Case { name: "empty call".into(), messages: 0, empty: true, ..join(0, 1) }];
    cases.extend(VECTORS.iter().flat_map(|&vectors| OTHERS.map(|others| join(others, vectors))));
    cases.extend([1, 4, 63].map(leave));
    cases.extend([
        Case::refused(Act::Join, none, BUFFER_BYTES, 10),
        Case::refused(Act::Join, full, BUFFER_BYTES - 1, 11),
        Case::refused(Act::Join, full, BUFFER_BYTES, 12),
        Case::refused(Act::Leave(64), full, BUFFER_BYTES, 4),
    ]);
    cases
}

/// Joins and leaves that do nothing.
const NOTHING: Serving = Serving {
    start: plain_server::start,
    join: |server, _| Served { server, ..Served::default() },
    leave: |server, _, _| Served { server, ..Served::default() },
};

/// The library first, then the yardsticks; for an empty call what does nothing.
fn sides(case: &Case) -> Vec<Serving> {
    if case.empty { vec![NOTHING] } else { vec![Serving::LIBRARY, PLAIN, BY_BITS] }
}

/// Ends the program where a yardstick does not answer and write what the library does, or the case is not what its name says.
pub fn check(case: &Case) {
    let trace = |side: Serving| {
        let mut buffer = vec![0xee; case.room];
        (side.serve(case.server, case.act, &mut buffer), buffer)
    };
    let traces: Vec<_> = sides(case).into_iter().map(trace).collect();
    assert_eq!((traces[0].0.number, traces[0].0.messages), (case.number, case.messages), "{}", case.name);
    for (name, trace) in YARDSTICKS.iter().zip(&traces[1..]) {
        assert!(*trace == traces[0], "{}: {name} differs from the library", case.name);
    }
}

/// Makes the call so many times; the time that it takes.
fn time(side: &Serving, case: &Case, buffer: &mut [u8], rounds: u32) -> Duration {
    let side = black_box(*side);
    let start = Instant::now();
    for _ in 0..rounds {
        let _ = black_box(side.serve(black_box(case.server), case.act, buffer));
    }
    start.elapsed()
}

/// Nanoseconds of a call by each side in one pass: the mean over the places of the stack, at each the median piece.
fn pass(case: &Case, rounds: u32) -> Pass {
    let (mut sides, mut buffer) = (sides(case), vec![0; case.room]);
    let sums = take_turns(&mut sides, PIECES, || (), |side| time(side, case, &mut buffer, rounds));
    sums.into_iter().map(|sum| sum / f64::from(rounds) / POSITIONS.len() as f64).collect()
}

/// Measures all rows in every pass.
#[must_use]
pub fn measure_all(cases: &[Case]) -> Vec<Row> {
    let rounds = |case: &Case| {
        let mut buffer = vec![0; case.room];
        rounds_of_piece(|rounds| time(&sides(case)[0], case, &mut buffer, rounds))
    };
    let timed: Vec<_> = cases.iter().map(|case| (case, rounds(case))).collect();
    let passes = in_passes(&timed, |(case, rounds)| pass(case, *rounds));
    let calls = |rounds: u32| rounds as usize * PIECES * POSITIONS.len();
    let rows = timed.iter().zip(&passes);
    rows.map(|((case, rounds), passes)| Row::new(&case.name, calls(*rounds), passes)).collect()
}
