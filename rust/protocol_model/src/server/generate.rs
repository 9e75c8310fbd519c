//! Random joins and leaves, and states, buffers and ids that are made up.

use ivshmem_protocol::raw;

use crate::generate::Generator;
use crate::server::{Act, IDS, ROOM, Server};

/// What happens to a server from its start on, in phases: in each it fills, empties, or stays about as it is.
#[derive(Clone, Debug)]
pub struct History {
    /// How many phases are left, and how many calls of this one.
    phases: u64,
    calls: u64,
    /// Of sixteen calls of this phase so many are joins.
    joins: u64,
    /// The state before the last call.
    last: Option<raw::Server>,
}

impl History {
    pub fn new(generator: &mut Generator) -> History {
        History { phases: 1 + generator.random.below(6), calls: 0, joins: 0, last: None }
    }

    /// What happens next to the server, which is in this state now. After a refused call, which changes nothing, another phase
    /// may begin.
    pub fn next(&mut self, generator: &mut Generator, now: raw::Server) -> Option<Act> {
        let was_refused = self.last.replace(now) == Some(now);
        if self.calls == 0 || (was_refused && generator.random.chance(1, 4)) {
            self.phases = self.phases.checked_sub(1)?;
            self.joins = generator.random.pick(&[0, 1, 4, 8, 8, 12, 15, 16]);
            self.calls = generator.random.pick(&[1, 10, 40, 80, 120]);
        }
        self.calls -= 1;
        Some(generator.act(now, self.joins))
    }
}

/// What is made up together: who is joined, the number of vectors, the buffer's length, the id.
const HOSTILE: [[bool; 4]; 8] = [
    [true, false, false, false],
    [true, false, false, true],
    [true, true, false, false],
    [true, false, true, false],
    [true, true, true, true],
    [false, true, false, false],
    [false, true, true, false],
    [false, false, true, true],
];

/// Random bytes that buffers are filled from.
pub struct Noise(Vec<u8>);

impl Noise {
    /// More than the longest buffer has.
    const BYTES: usize = 1 << 16;

    pub fn new(generator: &mut Generator) -> Noise {
        Noise((0..Noise::BYTES / 8).flat_map(|_| generator.random.long().to_le_bytes()).collect())
    }

    /// A buffer of so many random bytes.
    pub fn buffer(&self, generator: &mut Generator, length: usize) -> Vec<u8> {
        let at = generator.random.below((Noise::BYTES - length) as u64) as usize;
        self.0[at..at + length].to_vec()
    }
}

impl Generator {
    /// A join, so many times in sixteen, or a leave.
    fn act(&mut self, state: raw::Server, joins: u64) -> Act {
        if self.random.chance(joins, 16) { Act::Join } else { Act::Leave(self.leaver(state)) }
    }

    /// Mostly an id that is joined, where one is; at times any other number.
    fn leaver(&mut self, state: raw::Server) -> u64 {
        let joined: Vec<_> = Server::of(state).joined.into_iter().collect();
        let (any, id) = (self.random.long(), self.random.below(IDS));
        let high = self.random.pick(&[1 << 6, 1 << 8, 1 << 16, 1 << 32, 1 << 63]);
        let known = if joined.is_empty() { id } else { self.random.pick(&joined) };
        match self.random.below(32) {
            0 => self.random.pick(&[64, 65, 255, 256, u64::MAX, any]),
            1 => known | high,
            2 => id,
            _ => known,
        }
    }

    /// The length of a buffer that is taken.
    pub fn room(&mut self) -> usize {
        self.random.pick(&[ROOM, ROOM, ROOM + 1, ROOM + 10, ROOM + 4096])
    }

    /// A call for which who is joined, the number of vectors, the buffer's length or the id is made up, or several of them: the
    /// state, what happens, and the length.
    pub fn hostile(&mut self, state: raw::Server) -> (raw::Server, Act, usize) {
        let (mut state, mut room) = (state, self.room());
        let [joined, vectors, length, id] = self.random.pick(&HOSTILE);
        if joined {
            state.joined = self.any_joined();
        }
        if vectors {
            state.vectors = self.any_vectors();
        }
        if length {
            room = self.random.pick(&[0, 1, 9, 10, 11, 64, 2035, ROOM / 2, ROOM - 10, ROOM - 1, ROOM - 1]);
        }
        let (joins, any) = (self.random.pick(&[0, 8, 16]), self.random.long());
        let act = self.act(state, joins);
        let other = Act::Leave(self.random.pick(&[0, 63, 64, u64::MAX, any]));
        (state, if id && act != Act::Join { other } else { act }, room)
    }

    /// Few ids, many, all or none.
    fn any_joined(&mut self) -> u64 {
        let [any, other, one] = [self.random.long(), self.random.long(), 1 << self.random.below(IDS)];
        self.random.pick(&[0, u64::MAX, any, any & other, any | other, one, !one, one - 1, !(one - 1)])
    }
}
