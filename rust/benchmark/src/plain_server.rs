//! The server's side of the old protocol in plain Rust, as one would write it, a message at a time: once with a loop over all ids,
//! and once from one joined id to the next.

use std::iter;
use std::slice::ChunksExactMut;

use ivshmem_protocol::raw::{Served, Server, Started};
use ivshmem_protocol::{BUFFER_BYTES, IDS, MAX_VECTORS, SENT_BYTES, record};
use protocol_model::Serving;

/// What the library's calls do, with the same checks, lent the same memory. Each id is tested.
pub const PLAIN: Serving = Serving {
    start,
    join: |server, buffer| join(server, buffer, tested),
    leave: |server, id, buffer| leave(server, id, buffer, tested),
};

/// The same, with the joined ids found by the number's bits.
pub const BY_BITS: Serving = Serving {
    start,
    join: |server, buffer| join(server, buffer, found),
    leave: |server, id, buffer| leave(server, id, buffer, found),
};

/// Writes messages one behind the other.
struct Writer<'a> {
    places: ChunksExactMut<'a, u8>,
    messages: usize,
}

impl Writer<'_> {
    fn new(buffer: &mut [u8]) -> Writer<'_> {
        Writer { places: buffer.chunks_exact_mut(SENT_BYTES), messages: 0 }
    }

    fn send(&mut self, client: u64, descriptor: bool, number: i64) {
        if let Some(place) = self.places.next() {
            place[0] = client as u8;
            place[1..].copy_from_slice(&record(descriptor, number));
            self.messages += 1;
        }
    }

    /// Tells a client of all vectors of an id.
    fn connect(&mut self, client: u64, id: u64, vectors: u64) {
        for _ in 0..vectors {
            self.send(client, true, id as i64);
        }
    }
}

fn is_number(vectors: u64) -> bool {
    (1..=MAX_VECTORS).contains(&vectors)
}

/// The ids that are joined, the lowest first.
fn tested(joined: u64) -> impl Iterator<Item = u64> {
    (0..IDS as u64).filter(move |id| joined >> id & 1 == 1)
}

/// The same ids.
fn found(mut joined: u64) -> impl Iterator<Item = u64> {
    iter::from_fn(move || {
        let id = u64::from(joined.trailing_zeros());
        (joined != 0).then(|| {
            joined &= joined - 1;
            id
        })
    })
}

pub fn start(vectors: u64) -> Started {
    if !is_number(vectors) {
        return Started { number: 1, ..Started::default() };
    }
    Started { number: 0, server: Server { joined: 0, vectors } }
}

#[inline(always)]
fn join<I: Iterator<Item = u64>>(server: Server, buffer: &mut [u8], ids: impl Fn(u64) -> I) -> Served {
    let Server { joined, vectors } = server;
    if !is_number(vectors) {
        return Served { number: 10, server, ..Served::default() };
    }
    if buffer.len() < BUFFER_BYTES {
        return Served { number: 11, server, ..Served::default() };
    }
    if joined == u64::MAX {
        return Served { number: 12, server, ..Served::default() };
    }
    let id = u64::from(joined.trailing_ones());
    let mut writer = Writer::new(buffer);
    writer.send(id, false, 0);
    writer.send(id, false, id as i64);
    writer.send(id, true, -1);
    ids(joined).for_each(|other| writer.connect(id, other, vectors));
    writer.connect(id, id, vectors);
    ids(joined).for_each(|other| writer.connect(other, id, vectors));
    let server = Server { joined: joined | 1 << id, vectors };
    Served { number: 0, id: id as u32, messages: writer.messages, server }
}

#[inline(always)]
fn leave<I: Iterator<Item = u64>>(server: Server, id: u64, buffer: &mut [u8], ids: impl Fn(u64) -> I) -> Served {
    let Server { joined, vectors } = server;
    if !is_number(vectors) {
        return Served { number: 10, server, ..Served::default() };
    }
    if buffer.len() < BUFFER_BYTES {
        return Served { number: 11, server, ..Served::default() };
    }
    if id >= IDS as u64 || joined >> id & 1 == 0 {
        return Served { number: 4, server, ..Served::default() };
    }
    let joined = joined & !(1 << id);
    let mut writer = Writer::new(buffer);
    ids(joined).for_each(|other| writer.send(other, false, id as i64));
    Served { number: 0, id: id as u32, messages: writer.messages, server: Server { joined, vectors } }
}
