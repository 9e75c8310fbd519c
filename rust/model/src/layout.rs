//! Where the library keeps what in a hub's words. This is a fact of the library and no rule of the device: the settings, then
//! eight words for each peer, then the MSI-X entries in four columns (all low address words, all high ones, all data, all
//! control), each with the vectors of one peer after those of another. There are no words for peers or vectors that a hub does
//! not have.
//!
//! Every field of the model takes a whole word, so decoding loses nothing: equal hubs are equal words.

use std::ops::Range;

use crate::hub::{Entry, Hub, MAX_PEERS, MAX_VECTORS, MIN_BASE, Numbers, Peer};

const PEER_WORDS: usize = 8;
const PEERS_AT: usize = 10;

/// The words of the base, its low half first.
pub const BASE_WORDS: [usize; 2] = [5, 6];

// The model has its bounds from the rules, the wrapper from the library: they agree.
const _: () = assert!(MAX_PEERS == ivshmem::MAX_PEERS && MAX_VECTORS == ivshmem::MAX_VECTORS);
const _: () = assert!(MIN_BASE == ivshmem::MIN_BASE);

/// How many words a hub with these numbers has, or more than any memory holds.
#[must_use]
pub fn hub_words(numbers: &Numbers) -> u128 {
    let [n, v] = [numbers.peers, numbers.vectors].map(u128::from);
    (4 * n).saturating_mul(v).saturating_add(10 + 8 * n)
}

/// The numbers in front of the words; what is not there is 0.
#[must_use]
pub fn decode_numbers(words: &[u32]) -> Numbers {
    let number = |at: usize| u64::from(words.get(at).copied().unwrap_or_default());
    Numbers {
        peers: number(0),
        vectors: number(1),
        state_table: number(2),
        read_write: number(3),
        output: number(4),
        base: number(BASE_WORDS[1]) << 32 | number(BASE_WORDS[0]),
        protocol: number(7),
        subsystem_vendor: number(8),
        subsystem_id: number(9),
    }
}

/// The hub that the words are; nothing where their number is not the one that their first two ask for.
#[must_use]
pub fn decode(words: &[u32]) -> Option<Hub> {
    let numbers = decode_numbers(words);
    if words.len() as u128 != hub_words(&numbers) {
        return None;
    }
    let peers = words[PEERS_AT..entries_at(&numbers)].as_chunks().0.iter().map(decode_peer).collect();
    let [low, high, data, control] = columns(&numbers).map(|column| &words[column]);
    let entry = |k: usize| Entry { low: low[k], high: high[k], data: data[k], control: control[k] };
    Some(Hub { numbers, peers, entries: (0..low.len()).map(entry).collect() })
}

/// Where the entries begin, behind settings and registers.
fn entries_at(numbers: &Numbers) -> usize {
    PEERS_AT + PEER_WORDS * numbers.peers as usize
}

/// The four columns: peer i's entry v stands at place i * V + v of each.
fn columns(numbers: &Numbers) -> [Range<usize>; 4] {
    let length = (numbers.peers * numbers.vectors) as usize;
    std::array::from_fn(|column| {
        let start = entries_at(numbers) + column * length;
        start..start + length
    })
}

/// The word of a peer's State.
#[must_use]
pub fn state_word(id: u64) -> usize {
    PEERS_AT + PEER_WORDS * id as usize + PEER_WORDS - 1
}

/// The word of a peer's Interrupt Control.
#[must_use]
pub fn interrupt_word(id: u64) -> usize {
    state_word(id) - 1
}

fn decode_peer(row: &[u32; PEER_WORDS]) -> Peer {
    let [connected, command, bar0, bar1, privileged, message, interrupt, state] = *row;
    Peer { connected, command, bar0, bar1, privileged, message, interrupt, state }
}

/// The words of a hub whose set-up numbers fit them, as accepted ones and decoded ones do.
#[must_use]
pub fn encode(hub: &Hub) -> Vec<u32> {
    let n = &hub.numbers;
    let mut words = vec![0; hub_words(n) as usize];
    let numbers = [n.peers, n.vectors, n.state_table, n.read_write, n.output, n.base & 0xffff_ffff, n.base >> 32];
    for (word, number) in
        words.iter_mut().zip(numbers.into_iter().chain([n.protocol, n.subsystem_vendor, n.subsystem_id]))
    {
        *word = number as u32;
    }
    for (row, p) in words[PEERS_AT..].as_chunks_mut().0.iter_mut().zip(&hub.peers) {
        *row = [p.connected, p.command, p.bar0, p.bar1, p.privileged, p.message, p.interrupt, p.state];
    }
    let parts: [fn(&Entry) -> u32; 4] = [|e| e.low, |e| e.high, |e| e.data, |e| e.control];
    for (column, part) in columns(n).into_iter().zip(parts) {
        for (word, entry) in words[column].iter_mut().zip(&hub.entries) {
            *word = part(entry);
        }
    }
    words
}
