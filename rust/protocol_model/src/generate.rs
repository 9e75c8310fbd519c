//! Random streams, the pieces that they are cut into, and records that no reader has.

use ivshmem_protocol::raw::Progress;
use ivshmem_protocol::record;

use crate::random::Random;
use crate::reader::{CLOSED, ID_DUE, IDS, MAX_VECTORS, MEMORY_DUE, PEERS, State, VERSION_DUE};

/// Bytes for a reader that is configured for so many vectors.
#[derive(Clone, Debug)]
pub struct Stream {
    pub vectors: u64,
    pub bytes: Vec<u8>,
}

/// Makes random things.
pub struct Generator {
    pub random: Random,
    /// The ids that the present stream mostly has.
    favourites: [i64; 4],
}

impl Generator {
    /// The same seed gives the same things.
    pub fn new(seed: u64) -> Generator {
        Generator { random: Random::new(seed), favourites: [0; 4] }
    }

    /// A stream from the start: mostly good records, at times one that is not in place with a few behind it, at times a part of a
    /// record at the end.
    pub fn stream(&mut self) -> Stream {
        let vectors = self.vectors();
        let mut stream = Stream { vectors, bytes: Vec::new() };
        let mut state = State::start();
        self.favourites = std::array::from_fn(|_| self.id());
        for _ in 0..self.random.pick(&[3, 5, 10, 50, 500]) {
            let bytes = self.record(&state);
            state.read(vectors, &bytes).expect("the state of a stream");
            stream.bytes.extend(bytes);
            if state.progress.due == CLOSED && self.random.chance(1, 8) {
                break;
            }
        }
        for _ in 0..self.random.below(9) {
            stream.bytes.push(self.byte());
        }
        stream
    }

    /// A number of vectors that is taken.
    pub fn vectors(&mut self) -> u64 {
        match self.random.below(4) {
            0 => self.random.pick(&[1, MAX_VECTORS]),
            1 => 1 + self.random.below(MAX_VECTORS),
            _ => 1 + self.random.below(4),
        }
    }

    /// A record for a reader in this state, mostly a good one.
    fn record(&mut self, state: &State) -> [u8; 9] {
        let wrong_of = if state.progress.due < PEERS { 8 } else { 100 };
        let good = self.good(state);
        if self.random.chance(1, wrong_of) { self.wrong(state, good) } else { record(good.0, good.1) }
    }

    /// A record that is in place. Where the reader is closed, one that would be.
    fn good(&mut self, state: &State) -> (bool, i64) {
        match state.progress.due {
            VERSION_DUE => (false, 0),
            ID_DUE => (false, self.favourites[0]),
            MEMORY_DUE => (true, -1),
            PEERS => self.peer(state),
            _ => self.random.pick(&[(false, 0), (true, -1), (true, 1), (false, 1), (true, 63)]),
        }
    }

    fn peer(&mut self, state: &State) -> (bool, i64) {
        let id = if self.random.chance(1, 16) { self.id() } else { self.random.pick(&self.favourites) };
        let may_leave = id != i64::from(state.progress.own) && state.counts[id as usize] > 0;
        (!(may_leave && self.random.chance(1, 6)), id)
    }

    /// A record that is mostly not in place, and mostly nearly so.
    fn wrong(&mut self, state: &State, (descriptor, number): (bool, i64)) -> [u8; 9] {
        match self.random.below(8) {
            0 => record(!descriptor, number),
            1 => self.of_other_kind(number),
            2 => record(descriptor, number ^ 1 << self.random.below(64)),
            3 => record(descriptor, self.number()),
            4 => record(self.random.chance(1, 2), self.number()),
            5 => record(false, state.progress.own.into()),
            6 => record(false, self.random.pick(&[1, 0, 62, 63])),
            _ => record(descriptor, self.random.pick(&[64, 0xffff_ffff, number + (1 << 32)])),
        }
    }

    fn of_other_kind(&mut self, number: i64) -> [u8; 9] {
        let mut bytes = record(false, number);
        bytes[0] = self.random.pick(&[2, 3, 16, 128, 129, 254, 255]);
        bytes
    }

    fn id(&mut self) -> i64 {
        let any = self.random.below(IDS as u64) as i64;
        self.random.pick(&[0, 1, 63, any, any, any])
    }

    /// Numbers near those that are in place, or any.
    fn number(&mut self) -> i64 {
        let (id, any) = (self.id(), self.random.long().cast_signed());
        let high = self.random.pick(&[1 << 6, 1 << 8, 1 << 16, 1 << 32, i64::MIN]);
        self.random.pick(&[0, 1, 63, 64, 65, 255, -1, -2, -64, 0xffff_ffff, i64::MAX, i64::MIN, id | high, any])
    }

    fn byte(&mut self) -> u8 {
        let any = self.random.word() as u8;
        self.random.pick(&[0, 1, 2, 255, any])
    }

    /// Cuts bytes into pieces, some of which are empty.
    pub fn cut<'a>(&mut self, bytes: &'a [u8]) -> Vec<&'a [u8]> {
        let mut pieces = Vec::new();
        let longest = self.random.pick(&[1, 2, 9, 12, 40, 200, 10_000]);
        let shortest = longest.min(self.random.below(2));
        let mut rest = bytes;
        while !rest.is_empty() {
            let length = shortest + self.random.below(longest - shortest + 1);
            let (piece, behind) = rest.split_at(rest.len().min(length as usize));
            pieces.push(piece);
            rest = behind;
        }
        pieces
    }

    /// Bytes for one call, often more than a record.
    pub fn input(&mut self) -> Vec<u8> {
        let length = self.random.pick(&[0, 1, 8, 9, 10, 30]);
        let number = self.number();
        let front = record(self.random.chance(1, 2), number);
        (0..length).map(|at| front.get(at).copied().unwrap_or_else(|| self.byte())).collect()
    }

    /// A state and a number of vectors of which one thing is damaged, or more, or all.
    pub fn damaged(&mut self, state: &State, vectors: u64) -> (State, u64) {
        let (mut state, mut vectors) = (state.clone(), vectors);
        match self.random.below(8) {
            0 => return (self.noise(), self.any_vectors()),
            1 => return (self.near(vectors), vectors),
            2 => vectors = self.any_vectors(),
            3 => self.damage_length(&mut state.counts),
            _ => self.damage(&mut state, vectors),
        }
        while self.random.chance(1, 4) {
            self.damage(&mut state, vectors);
        }
        if self.random.chance(1, 16) {
            self.damage_length(&mut state.counts);
        }
        (state, vectors)
    }

    /// Any number of vectors, mostly one that is not taken.
    pub fn any_vectors(&mut self) -> u64 {
        let any = self.random.long();
        let high = self.random.pick(&[1 << 4, 1 << 8, 1 << 16, 1 << 32, 1 << 63]);
        self.random.pick(&[0, 1, 16, 17, 18, 255, u64::MAX, any, high | 1])
    }

    fn damage_length(&mut self, counts: &mut Vec<u8>) {
        let length = self.random.pick(&[0, 1, 63, 65, 66, 128, 320]);
        let filled = self.random.pick(&[0, 1, 255]);
        counts.resize(length, filled);
    }

    fn damage(&mut self, state: &mut State, vectors: u64) {
        let (word, long) = (self.random.word(), self.random.long());
        let any = self.random.below(IDS as u64) as usize;
        let at = self.random.pick(&[0, 63, any]).min(state.counts.len().saturating_sub(1));
        let progress = &mut state.progress;
        match self.random.below(6) {
            0 => progress.due = self.random.pick(&[0, 1, 2, 3, 4, 5, 6, 255, 256, 259, 1 << 16, 1 << 31, word]),
            1 => progress.own = self.random.pick(&[0, 1, 62, 63, 64, 65, 255, 256, 1 << 16, 1 << 31, word]),
            2 => progress.held = self.random.pick(&[0, 1, 7, 8, 9, 10, 255, 256, 1 << 32, 1 << 63, long as usize]),
            3 => progress.bytes = long.to_le_bytes(),
            _ => {
                let limit = vectors.min(255) as u8;
                let count = self.random.pick(&[0, 1, limit, limit.saturating_add(1), 128, 255, word as u8]);
                state.counts.iter_mut().skip(at).take(1).for_each(|place| *place = count);
            }
        }
    }

    /// A state that may be taken: every number in its range, and the counts of any peers.
    fn near(&mut self, vectors: u64) -> State {
        let due = self.random.pick(&[0, 1, 2, 3, 3, 4]);
        let own = self.random.below(IDS as u64) as u32;
        let held = self.random.below(9) as usize;
        let progress = Progress { due, own, held, bytes: self.random.long().to_le_bytes() };
        let most = self.random.pick(&[0, 1, vectors.min(255)]);
        let counts = (0..IDS).map(|_| self.random.below(most + 1) as u8).collect();
        State { progress, counts }
    }

    fn noise(&mut self) -> State {
        let mut state = State::start();
        state.progress.due = self.random.word() >> self.random.below(32);
        state.progress.own = self.random.word() >> self.random.below(32);
        state.progress.held = (self.random.long() >> self.random.below(64)) as usize;
        state.progress.bytes = self.random.long().to_le_bytes();
        state.counts.iter_mut().for_each(|count| *count = self.random.word() as u8);
        state
    }
}
