//! Where a yardstick keeps the hub: an ordinary struct, or words in the library's layout. Both have room for as many peers and
//! vectors as the set-up asks for, and for no more.

use std::borrow::BorrowMut;

use ivshmem::{Delivery, hub_words};
use model::call::Call;

use crate::rules::{Entry, Numbers, Registers, delivery, passes, words_asked};

/// A hub's settings, registers and MSI-X entries.
pub trait State {
    fn numbers(&self) -> Numbers;
    fn put_numbers(&mut self, numbers: &Numbers);
    fn registers(&self, id: usize) -> Registers;
    fn put_registers(&mut self, id: usize, registers: &Registers);

    /// An entry of a hub with these numbers; where it stands may depend on them.
    fn entry(&self, numbers: &Numbers, id: usize, vector: usize) -> Entry;
    fn put_entry(&mut self, numbers: &Numbers, id: usize, vector: usize, entry: &Entry);

    /// Whether there is room for just so many peers and vectors. The numbers are accepted ones.
    fn fits(&self, numbers: &Numbers) -> bool;

    /// A hub with these numbers, which fit, and nobody connected.
    fn begin(&mut self, numbers: &Numbers);

    /// All zero: what a refused set-up leaves.
    fn clear(&mut self);

    /// All registers and entries of a peer at their reset values.
    fn reset(&mut self, numbers: &Numbers, id: usize, connected: u32);

    /// Vector 0 is rung at every peer but the sender, and the table filled; answers the count of deliveries.
    fn ring_others(&mut self, numbers: &Numbers, sender: usize, table: &mut [Delivery]) -> usize;
}

/// A form in which a hub is lent to a call.
pub trait Form: State {
    type Owned: BorrowMut<Self> + Clone;

    /// What the host owns, with the contents of these words.
    fn owned(words: &[u32]) -> Self::Owned;
    fn words(owned: &Self::Owned) -> Vec<u32>;

    /// How much memory that is.
    fn bytes(owned: &Self::Owned) -> usize;

    /// Lends these words to a call in this form.
    fn lend<R>(words: &mut [u32], call: &Call, make: impl FnOnce(&mut Self) -> R) -> R;
}

/// A peer of the ordinary struct.
#[derive(Clone, Debug)]
pub struct Peer {
    pub registers: Registers,
    pub entries: Vec<Entry>,
}

/// The hub as an ordinary struct.
#[derive(Clone, Debug)]
pub struct Plain {
    pub numbers: Numbers,
    pub peers: Vec<Peer>,
}

const ZERO: Entry = Entry { low: 0, high: 0, data: 0, control: 0 };

impl Plain {
    fn with_room(peers: usize, vectors: usize) -> Plain {
        let peer = Peer { registers: Registers::default(), entries: vec![ZERO; vectors] };
        Plain { numbers: Numbers::ZERO, peers: vec![peer; peers] }
    }

    /// The numbers of peers and vectors that it has room for.
    fn room(&self) -> Numbers {
        let vectors = self.peers.first().map_or(0, |peer| peer.entries.len());
        Numbers { peers: self.peers.len() as u64, vectors: vectors as u64, ..Numbers::ZERO }
    }
}

impl State for Plain {
    #[inline(always)]
    fn numbers(&self) -> Numbers {
        self.numbers
    }

    #[inline(always)]
    fn put_numbers(&mut self, numbers: &Numbers) {
        self.numbers = *numbers;
    }

    #[inline(always)]
    fn registers(&self, id: usize) -> Registers {
        self.peers[id].registers
    }

    #[inline(always)]
    fn put_registers(&mut self, id: usize, registers: &Registers) {
        self.peers[id].registers = *registers;
    }

    #[inline(always)]
    fn entry(&self, _: &Numbers, id: usize, vector: usize) -> Entry {
        self.peers[id].entries[vector]
    }

    #[inline(always)]
    fn put_entry(&mut self, _: &Numbers, id: usize, vector: usize, entry: &Entry) {
        self.peers[id].entries[vector] = *entry;
    }

    #[inline(always)]
    fn fits(&self, numbers: &Numbers) -> bool {
        self.peers.len() as u64 == numbers.peers
            && self.peers.iter().all(|peer| peer.entries.len() as u64 == numbers.vectors)
    }

    #[inline(always)]
    fn begin(&mut self, numbers: &Numbers) {
        self.numbers = *numbers;
        for peer in &mut self.peers {
            peer.registers = Registers::default();
            peer.entries.fill(Entry::RESET);
        }
    }

    #[inline(always)]
    fn clear(&mut self) {
        self.numbers = Numbers::ZERO;
        for peer in &mut self.peers {
            peer.registers = Registers::default();
            peer.entries.fill(ZERO);
        }
    }

    #[inline(always)]
    fn reset(&mut self, _: &Numbers, id: usize, connected: u32) {
        let peer = &mut self.peers[id];
        peer.registers = Registers { connected, ..Registers::default() };
        peer.entries.fill(Entry::RESET);
    }

    #[inline(always)]
    fn ring_others(&mut self, _: &Numbers, sender: usize, table: &mut [Delivery]) -> usize {
        let mut count = 0;
        for (target, peer) in self.peers.iter_mut().enumerate() {
            let entry = &peer.entries[0];
            if target != sender && passes(&peer.registers, entry.control) {
                peer.registers.interrupt &= !peer.registers.privileged;
                table[count] = delivery(target, 0, entry);
                count += 1;
            }
        }
        count
    }
}

impl Form for Plain {
    type Owned = Plain;

    /// Where the words are not as many as they ask for, there are no peers: not as many as the numbers say.
    fn owned(words: &[u32]) -> Plain {
        let numbers = words.numbers();
        if words_asked(&numbers) != words.len() as u128 {
            return Plain { numbers, peers: Vec::new() };
        }
        let mut plain = Plain::with_room(numbers.peers as usize, numbers.vectors as usize);
        copy(words, &mut plain, &numbers);
        plain
    }

    fn words(owned: &Plain) -> Vec<u32> {
        let room = owned.room();
        let mut words = vec![0; hub_words(room.peers as usize, room.vectors as usize)];
        copy(owned, &mut words[..], &room);
        words
    }

    fn bytes(owned: &Plain) -> usize {
        let entries = |peer: &Peer| size_of_val(peer) + size_of_val(&peer.entries[..]);
        size_of_val(owned) + owned.peers.iter().map(entries).sum::<usize>()
    }

    fn lend<R>(words: &mut [u32], call: &Call, make: impl FnOnce(&mut Plain) -> R) -> R {
        let mut plain = match call {
            // A set-up finds a struct with the room that it asks for where the words are as many, otherwise one without any.
            Call::SetUp(s) if words_asked(&s.into()) == words.len() as u128 => {
                Plain::with_room(s.peers as usize, s.vectors as usize)
            }
            Call::SetUp(_) => Plain::with_room(0, 0),
            _ => Plain::owned(words),
        };
        let result = make(&mut plain);
        let left = Plain::words(&plain);
        match call {
            _ if left.len() == words.len() => words.copy_from_slice(&left),
            Call::SetUp(_) => words.fill(0),
            _ => {}
        }
        result
    }
}

fn copy(from: &(impl State + ?Sized), to: &mut (impl State + ?Sized), room: &Numbers) {
    to.put_numbers(&from.numbers());
    for id in 0..room.peers as usize {
        to.put_registers(id, &from.registers(id));
        for vector in 0..room.vectors as usize {
            to.put_entry(room, id, vector, &from.entry(room, id, vector));
        }
    }
}

/// Words of the settings.
const SETTING_WORDS: usize = 10;
/// Words of a peer's registers, in the order of [`Registers`].
pub const PEER_WORDS: usize = 8;

/// The parts of a hub's words, which are as many as its numbers ask for: a row for each peer, and the entries in four columns.
pub struct Parts<'a> {
    pub rows: &'a [[u32; PEER_WORDS]],
    pub low: &'a [u32],
    pub high: &'a [u32],
    pub data: &'a [u32],
    pub control: &'a [u32],
}

impl Parts<'_> {
    #[inline(always)]
    pub fn of<'a>(words: &'a [u32], numbers: &Numbers) -> Parts<'a> {
        let (peers, vectors) = (numbers.peers as usize, numbers.vectors as usize);
        let (rows, entries) = words[SETTING_WORDS..].split_at(PEER_WORDS * peers);
        let (low, entries) = entries.split_at(peers * vectors);
        let (high, entries) = entries.split_at(peers * vectors);
        let (data, control) = entries.split_at(peers * vectors);
        Parts { rows: rows.as_chunks().0, low, high, data, control }
    }
}

/// Where an entry's words stand.
#[inline(always)]
fn entry_words(numbers: &Numbers, id: usize, vector: usize) -> [usize; 4] {
    let (peers, vectors) = (numbers.peers as usize, numbers.vectors as usize);
    let low = SETTING_WORDS + PEER_WORDS * peers + id * vectors + vector;
    let column = peers * vectors;
    [low, low + column, low + 2 * column, low + 3 * column]
}

impl State for [u32] {
    /// Of fewer words than there are settings, none.
    #[inline(always)]
    fn numbers(&self) -> Numbers {
        let Some(words) = self.first_chunk::<SETTING_WORDS>() else { return Numbers::ZERO };
        Numbers {
            peers: words[0].into(),
            vectors: words[1].into(),
            state_table: words[2].into(),
            read_write: words[3].into(),
            output: words[4].into(),
            base: u64::from(words[6]) << 32 | u64::from(words[5]),
            protocol: words[7].into(),
            subsystem_vendor: words[8].into(),
            subsystem_id: words[9].into(),
        }
    }

    #[inline(always)]
    fn put_numbers(&mut self, n: &Numbers) {
        let sizes = [n.peers, n.vectors, n.state_table, n.read_write, n.output];
        let rest = [n.base, n.base >> 32, n.protocol, n.subsystem_vendor, n.subsystem_id];
        for (word, number) in self.iter_mut().zip(sizes.into_iter().chain(rest)) {
            *word = number as u32;
        }
    }

    #[inline(always)]
    fn registers(&self, id: usize) -> Registers {
        let rows = self[SETTING_WORDS..].as_chunks().0;
        registers_of(&rows[id])
    }

    #[inline(always)]
    fn put_registers(&mut self, id: usize, r: &Registers) {
        let rows = self[SETTING_WORDS..].as_chunks_mut().0;
        rows[id] = [r.connected, r.command, r.bar0, r.bar1, r.privileged, r.message, r.interrupt, r.state];
    }

    #[inline(always)]
    fn entry(&self, numbers: &Numbers, id: usize, vector: usize) -> Entry {
        let [low, high, data, control] = entry_words(numbers, id, vector).map(|at| self[at]);
        Entry { low, high, data, control }
    }

    #[inline(always)]
    fn put_entry(&mut self, numbers: &Numbers, id: usize, vector: usize, entry: &Entry) {
        let words = [entry.low, entry.high, entry.data, entry.control];
        for (at, word) in entry_words(numbers, id, vector).into_iter().zip(words) {
            self[at] = word;
        }
    }

    #[inline(always)]
    fn fits(&self, numbers: &Numbers) -> bool {
        self.len() == hub_words(numbers.peers as usize, numbers.vectors as usize)
    }

    #[inline(always)]
    fn begin(&mut self, numbers: &Numbers) {
        self.put_numbers(numbers);
        let [.., control] = entry_words(numbers, 0, 0);
        self[SETTING_WORDS..control].fill(0);
        self[control..].fill(1);
    }

    #[inline(always)]
    fn clear(&mut self) {
        self.fill(0);
    }

    #[inline(always)]
    fn reset(&mut self, numbers: &Numbers, id: usize, connected: u32) {
        self.put_registers(id, &Registers { connected, ..Registers::default() });
        for (start, reset) in entry_words(numbers, id, 0).into_iter().zip([0, 0, 0, 1]) {
            self[start..][..numbers.vectors as usize].fill(reset);
        }
    }

    #[inline(always)]
    fn ring_others(&mut self, numbers: &Numbers, sender: usize, table: &mut [Delivery]) -> usize {
        let (vectors, column) = (numbers.vectors as usize, (numbers.peers * numbers.vectors) as usize);
        let (rows, low) = self[SETTING_WORDS..].split_at_mut(PEER_WORDS * numbers.peers as usize);
        let (low, high) = low.split_at(column);
        let (high, data) = high.split_at(column);
        let (data, control) = data.split_at(column);
        // All have one length, so that a place has to be tested once.
        let control = &control[..column];
        let mut count = 0;
        for (target, row) in rows.as_chunks_mut().0.iter_mut().enumerate() {
            let at = target * vectors;
            if target != sender && passes(&registers_of(row), control[at]) {
                row[INTERRUPT] &= !row[PRIVILEGED];
                let entry = Entry { low: low[at], high: high[at], data: data[at], control: 0 };
                table[count] = delivery(target, 0, &entry);
                count += 1;
            }
        }
        count
    }
}

/// The places of Privileged Control and Interrupt Control in a row.
const PRIVILEGED: usize = 4;
const INTERRUPT: usize = 6;

#[inline(always)]
fn registers_of(row: &[u32; PEER_WORDS]) -> Registers {
    let [connected, command, bar0, bar1, privileged, message, interrupt, state] = *row;
    Registers { connected, command, bar0, bar1, privileged, message, interrupt, state }
}

impl Form for [u32] {
    type Owned = Vec<u32>;

    fn owned(words: &[u32]) -> Vec<u32> {
        words.to_vec()
    }

    fn words(owned: &Vec<u32>) -> Vec<u32> {
        owned.clone()
    }

    fn bytes(owned: &Vec<u32>) -> usize {
        size_of_val(&owned[..])
    }

    fn lend<R>(words: &mut [u32], _: &Call, make: impl FnOnce(&mut [u32]) -> R) -> R {
        make(words)
    }
}
