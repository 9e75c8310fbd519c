//! The model of the server: sets of ids, and a queue of messages for each client.

use std::collections::BTreeSet;

use ivshmem_protocol::raw::{self, Served, Started};

use crate::Serving;
use crate::reader::{self, MAX_VECTORS};

pub mod clients;
pub mod compare;
pub mod count;
pub mod generate;

/// Ids are below this.
pub const IDS: u64 = reader::IDS as u64;
/// Bytes of a message in the buffer: one of the client's id, one of kind, eight of the number.
pub const SENT: usize = 10;
/// The fewest bytes that are lent.
pub const ROOM: usize = 20350;

/// What happens to a server.
#[derive(Clone, Copy, Debug, PartialEq, Eq)]
pub enum Act {
    Join,
    Leave(u64),
}

/// A message for a client.
#[derive(Clone, Copy, Debug, PartialEq, Eq)]
pub struct Message {
    pub client: u64,
    pub descriptor: bool,
    pub number: i64,
}

impl Message {
    pub fn bytes(self) -> [u8; SENT] {
        let mut bytes = [0; SENT];
        bytes[0] = self.client as u8;
        bytes[1] = if self.descriptor { 1 } else { 0 };
        bytes[2..].copy_from_slice(&self.number.to_le_bytes());
        bytes
    }
}

/// What is said to one client by a call, in its order.
type Queue = Vec<Message>;

/// What a server knows.
#[derive(Clone, Debug, PartialEq, Eq)]
pub struct Server {
    pub joined: BTreeSet<u64>,
    pub vectors: u64,
}

impl Server {
    /// The server that a state is.
    pub fn of(state: raw::Server) -> Server {
        let joined = (0..IDS).filter(|id| state.joined >> id & 1 == 1).collect();
        Server { joined, vectors: state.vectors }
    }

    /// The state that it is.
    pub fn state(&self) -> raw::Server {
        raw::Server { joined: self.joined.iter().map(|id| 1 << id).sum(), vectors: self.vectors }
    }

    /// The numbers of all refusals that apply, the one that is given first.
    pub fn refusals(&self, act: Act, room: usize) -> Vec<u32> {
        let last = match act {
            Act::Join => (self.joined.len() as u64 == IDS, 12),
            Act::Leave(id) => (!self.joined.contains(&id), 4),
        };
        let all = [(is_no_number(self.vectors), 10), (room < ROOM, 11), last];
        all.into_iter().filter_map(|(refused, number)| refused.then_some(number)).collect()
    }

    /// The id that has joined or left, and the messages.
    ///
    /// # Errors
    /// The number of the refusal.
    pub fn serve(&mut self, act: Act, room: usize) -> Result<(u64, Vec<Message>), u32> {
        if let Some(&number) = self.refusals(act, room).first() {
            return Err(number);
        }
        let (id, queues) = match act {
            Act::Join => self.join(),
            Act::Leave(id) => (id, self.leave(id)),
        };
        Ok((id, queues.concat()))
    }

    /// The lowest free id, and the queues of the new client and then of the others.
    fn join(&mut self) -> (u64, Vec<Queue>) {
        let id = (0..).find(|id| !self.joined.contains(id)).expect("a free id");
        let mut queues = vec![self.welcome(id)];
        queues.extend(self.joined.iter().map(|&other| self.connected(other, id)));
        self.joined.insert(id);
        (id, queues)
    }

    /// What a new client is told: version, own id, memory, the others that are there, and its own vectors.
    fn welcome(&self, client: u64) -> Queue {
        let said = |descriptor, number| Message { client, descriptor, number };
        let mut queue = vec![said(false, 0), said(false, client as i64), said(true, -1)];
        for &other in &self.joined {
            queue.extend(self.connected(client, other));
        }
        queue.extend(self.connected(client, client));
        queue
    }

    /// What tells a client of another or of itself: the id once for each vector, each time with its descriptor.
    fn connected(&self, client: u64, id: u64) -> Queue {
        vec![Message { client, descriptor: true, number: id as i64 }; self.vectors as usize]
    }

    /// The queues of those who stay.
    fn leave(&mut self, id: u64) -> Vec<Queue> {
        self.joined.remove(&id);
        let left = |&client: &u64| vec![Message { client, descriptor: false, number: id as i64 }];
        self.joined.iter().map(left).collect()
    }
}

/// Whether clients can't have so many vectors.
fn is_no_number(vectors: u64) -> bool {
    vectors == 0 || vectors > MAX_VECTORS
}

/// Writes the messages to the front of the buffer.
pub fn write(messages: &[Message], buffer: &mut [u8]) {
    for (place, message) in buffer.chunks_exact_mut(SENT).zip(messages) {
        place.copy_from_slice(&message.bytes());
    }
}

/// The model in the form of the library's calls.
pub const MODEL: Serving = Serving { start, join, leave };

pub fn start(vectors: u64) -> Started {
    match is_no_number(vectors) {
        true => Started { number: 1, ..Started::default() },
        false => Started { number: 0, server: raw::Server { joined: 0, vectors } },
    }
}

pub fn join(server: raw::Server, buffer: &mut [u8]) -> Served {
    serve(server, Act::Join, buffer)
}

pub fn leave(server: raw::Server, id: u64, buffer: &mut [u8]) -> Served {
    serve(server, Act::Leave(id), buffer)
}

fn serve(state: raw::Server, act: Act, buffer: &mut [u8]) -> Served {
    let mut server = Server::of(state);
    match server.serve(act, buffer.len()) {
        Err(number) => Served { number, server: state, ..Served::default() },
        Ok((id, messages)) => {
            write(&messages, buffer);
            Served { number: 0, id: id as u32, messages: messages.len(), server: server.state() }
        }
    }
}
