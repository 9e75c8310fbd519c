//! The host's memory, and the comparison of two of them after every event.

use ivshmem::{Delivery, MAX_PEERS, MAX_VECTORS, PeerId, Settings, Vector};

use crate::call::{Call, Event, Lengths};
use crate::hub::{Hub, Numbers, Peer};
use crate::layout::{encode, hub_words};
use crate::subject::{Answer, Lent, Subject};

/// Elements that every lent slice has behind its end, to see stores that run past it.
const SLACK: usize = 64;
/// The longest region that the host makes.
pub const LONGEST_REGION: u128 = 272 * 1024;
/// Records that the host has; it may lend fewer.
pub const MOST_RECORDS: usize = MAX_PEERS + 6;
/// Words that the host has, more than a hub of one peer and one vector too many would take; it lends fewer.
pub const MOST_WORDS: usize = ivshmem::hub_words(MAX_PEERS + 1, MAX_VECTORS + 1) + SLACK;

/// What the host owns and lends.
#[derive(Clone)]
pub struct World {
    words: Vec<u32>,
    in_hub: usize,
    lent_words: usize,
    region: Vec<u8>,
    total: usize,
    table: [Delivery; MOST_RECORDS],
    buffer: Vec<u8>,
    in_buffer: usize,
}

impl Default for World {
    fn default() -> World {
        World {
            words: vec![0; MOST_WORDS],
            in_hub: 0,
            lent_words: 0,
            region: vec![0xa5; SLACK],
            total: 0,
            table: [Delivery::default(); MOST_RECORDS],
            buffer: Vec::new(),
            in_buffer: 0,
        }
    }
}

impl World {
    /// The words of the hub, as many as the host takes it to have.
    #[must_use]
    pub fn hub_words(&self) -> &[u32] {
        &self.words[..self.in_hub]
    }

    /// The words that the last call was lent.
    #[must_use]
    pub fn lent_words(&self) -> &[u32] {
        &self.words[..self.lent_words]
    }

    /// The shared bytes.
    #[must_use]
    pub fn region(&self) -> &[u8] {
        &self.region[..self.total]
    }

    /// The delivery table.
    #[must_use]
    pub fn table(&self) -> &[Delivery] {
        &self.table
    }

    /// The buffer that the last call was lent.
    #[must_use]
    pub fn buffer(&self) -> &[u8] {
        &self.buffer[..self.in_buffer - SLACK]
    }

    /// The region's right length.
    #[must_use]
    pub fn total(&self) -> usize {
        self.total
    }

    /// Puts other words in the hub's place.
    pub fn set_hub_words(&mut self, words: &[u32]) {
        self.in_hub = words.len();
        self.words[..self.in_hub].copy_from_slice(words);
    }

    /// Makes hub and region as long as the settings ask, each where that is not too long.
    pub fn fit(&mut self, settings: &Settings) {
        let numbers = Numbers::from(settings);
        let (words, total) = (hub_words(&numbers), numbers.total());
        if words <= (MOST_WORDS - SLACK) as u128 {
            self.in_hub = words as usize;
        }
        if total <= LONGEST_REGION {
            self.total = total as usize;
            self.region.resize(self.total + SLACK, 0xa5);
        }
    }

    /// Lets the event happen; a call's answer.
    pub fn apply(&mut self, subject: &mut impl Subject, event: &Event) -> Option<Answer> {
        match event {
            Event::Call(call, lengths) => return Some(self.call(subject, call, lengths)),
            Event::Flip { word, bits } => self.words[*word] ^= bits,
            Event::Plant(settings, mask) => {
                self.fit(settings);
                let mut hub = Hub::fresh(settings.into());
                for (id, peer) in hub.peers.iter_mut().enumerate() {
                    if mask >> id & 1 == 1 {
                        *peer = Peer::FRESH;
                    }
                }
                self.set_hub_words(&encode(&hub));
            }
        }
        None
    }

    fn call(&mut self, subject: &mut impl Subject, call: &Call, lengths: &Lengths) -> Answer {
        if let Call::SetUp(settings) = call {
            self.fit(settings);
        }
        self.fill_table();
        self.fill_buffer(call);
        let other = |right: usize, more: i64, most: usize| (right as i64 + more).clamp(0, most as i64) as usize;
        let bytes = other(self.total, lengths.region, self.region.len());
        self.lent_words = other(self.in_hub, lengths.words, MOST_WORDS);
        let lent = Lent {
            words: &mut self.words[..self.lent_words],
            region: &mut self.region[..bytes],
            table: &mut self.table[..lengths.records.min(MOST_RECORDS)],
            buffer: &mut self.buffer[..call.buffer_length()],
        };
        subject.perform(call, lent)
    }

    /// Records that no delivery is equal to.
    fn fill_table(&mut self) {
        for (at, record) in (0xde00..).zip(&mut self.table) {
            *record = Delivery { address: at.into(), data: at.into(), target: PeerId(at), vector: Vector(at) };
        }
    }

    fn fill_buffer(&mut self, call: &Call) {
        self.in_buffer = call.buffer_length() + SLACK;
        if self.buffer.len() < self.in_buffer {
            self.buffer.resize(self.in_buffer, 0);
        }
        let byte = call.buffer_byte();
        for (at, place) in self.buffer[..self.in_buffer].iter_mut().enumerate() {
            *place = byte(at);
        }
    }

    /// Where the two differ, in words; nothing where all memory is equal.
    #[must_use]
    pub fn difference(&self, other: &World) -> Option<String> {
        if let Some(text) = first_difference("hub word", &self.words, &other.words) {
            return Some(text);
        }
        if let Some(text) = first_difference("record", &self.table, &other.table) {
            return Some(text);
        }
        if let Some(text) = first_difference("region byte", &self.region, &other.region) {
            return Some(text);
        }
        first_difference("buffer byte", &self.buffer[..self.in_buffer], &other.buffer[..other.in_buffer])
    }
}

fn first_difference<T: PartialEq + std::fmt::Debug>(what: &str, left: &[T], right: &[T]) -> Option<String> {
    if left == right {
        return None;
    }
    let at = left.iter().zip(right).position(|(l, r)| l != r).unwrap_or(left.len().min(right.len()));
    Some(format!("{what} {at} is {:x?}; the model has {:x?}", left.get(at), right.get(at)))
}
