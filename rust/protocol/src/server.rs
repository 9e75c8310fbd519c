//! A server that keeps its state itself, and the messages that its calls have written.

use core::iter::FusedIterator;

use crate::raw::{self, Served, Started};
use crate::{IDS, Message, RECORD_BYTES, Refusal, SENT_BYTES};

/// The messages of the start, which come before all vectors: the version, the id and the memory.
const START: usize = 3;

/// A server of the older device: who is joined, and the number of vectors that each client has.
///
/// It has no socket and no descriptor. It says who gets which message with which descriptor, in which order, and the host sends
/// them. The buffer that a call writes them to has at least [`BUFFER_BYTES`](crate::BUFFER_BYTES) bytes; one serves all calls.
///
/// Calls are refused for the buffer, for a join where all ids are joined, and for a leave of an id that is not, and for nothing
/// else: [`new`](Server::new) and [`from_raw`](Server::from_raw) ask the library whether it takes the number of vectors.
#[derive(Clone, Debug, PartialEq, Eq, Hash)]
pub struct Server {
    state: raw::Server,
}

impl Server {
    /// A server that nobody has joined, whose clients have so many vectors each.
    ///
    /// # Errors
    /// [`Refusal::BadVectors`] where the number is not 1 to [`MAX_VECTORS`](crate::MAX_VECTORS).
    pub fn new(vectors: u64) -> Result<Server, Refusal> {
        raw::start(vectors).result().map(|state| Server { state })
    }

    /// A server that goes on with a state that was kept.
    ///
    /// # Errors
    /// [`Refusal::BadServer`] where the number of vectors is not 1 to [`MAX_VECTORS`](crate::MAX_VECTORS). Of who is joined
    /// everything is taken.
    pub fn from_raw(state: raw::Server) -> Result<Server, Refusal> {
        // Without a buffer a call changes nothing, and a state that is none is what it is refused for first.
        match raw::join(state, &mut []).result() {
            Err(Refusal::BadServer) => Err(Refusal::BadServer),
            _ => Ok(Server { state }),
        }
    }

    /// The state, as the library has left it.
    #[must_use]
    pub fn to_raw(&self) -> raw::Server {
        self.state
    }

    /// A client joins, and gets the lowest id that is free. The host makes its vectors' descriptors and sends the messages, in
    /// their order.
    ///
    /// # Errors
    /// [`Refusal::ShortBuffer`]; then [`Refusal::Full`] where all ids are joined.
    pub fn join<'buffer>(&mut self, buffer: &'buffer mut [u8]) -> Result<Joined<'buffer>, Refusal> {
        let served = raw::join(self.state, buffer).result()?;
        self.state = served.server;
        // The library gives no id above 63.
        Ok(Joined { id: served.id as u8, messages: SentMessages::new(&served, true, buffer) })
    }

    /// The client with this id leaves. The host sends the messages, which go to those that are still joined, and closes what it
    /// keeps of the client.
    ///
    /// # Errors
    /// [`Refusal::ShortBuffer`]; then [`Refusal::NotJoined`] where the id is not joined, as none above 63 is.
    pub fn leave<'buffer>(&mut self, id: u8, buffer: &'buffer mut [u8]) -> Result<SentMessages<'buffer>, Refusal> {
        let served = raw::leave(self.state, id.into(), buffer).result()?;
        self.state = served.server;
        Ok(SentMessages::new(&served, false, buffer))
    }

    /// Whether the id is joined; none above 63 is.
    #[must_use]
    pub fn is_joined(&self, id: u8) -> bool {
        self.state.joined.checked_shr(id.into()).is_some_and(|bits| bits & 1 == 1)
    }

    /// The ids that are joined, the lowest first.
    pub fn joined(&self) -> impl Iterator<Item = u8> + use<> {
        let server = self.clone();
        (0..IDS as u8).filter(move |&id| server.is_joined(id))
    }

    /// How many vectors each client has.
    #[must_use]
    pub fn vectors(&self) -> u64 {
        self.state.vectors
    }
}

/// A client that has joined.
#[must_use = "the messages are to be sent"]
#[derive(Clone, Debug)]
pub struct Joined<'buffer> {
    /// The client's id.
    pub id: u8,
    /// What is to be sent: first to this client, then to the others.
    pub messages: SentMessages<'buffer>,
}

/// The messages that a call has written, in the order in which they are to be sent. See [`Server::join`] and [`Server::leave`].
#[must_use = "the messages are to be sent"]
#[derive(Clone, Debug)]
pub struct SentMessages<'buffer> {
    rest: &'buffer [u8],
    vectors: u64,
    /// Whether they are those of a join.
    joins: bool,
    /// How many were gone through.
    place: usize,
}

impl<'buffer> SentMessages<'buffer> {
    fn new(served: &Served, joins: bool, buffer: &'buffer [u8]) -> SentMessages<'buffer> {
        // The library never writes more than it was lent; `get` only spares a panic that can't happen.
        let rest = buffer.get(..SENT_BYTES * served.messages).unwrap_or_default();
        SentMessages { rest, vectors: served.server.vectors, joins, place: 0 }
    }

    /// The bytes of the messages that were not gone through, as the library has written them: for each
    /// [`SENT_BYTES`](crate::SENT_BYTES), the client's id and a record.
    #[must_use]
    pub fn rest(&self) -> &'buffer [u8] {
        self.rest
    }

    /// What the next message says, which names this id. Its place tells: behind the three of the start, a join's messages to one
    /// client name one id as often as there are vectors, and then another.
    fn message(&self, id: u8) -> Message {
        match (self.joins, self.place) {
            (false, _) => Message::Disconnected { id },
            (true, 0) => Message::Version,
            (true, 1) => Message::Id(id),
            (true, 2) => Message::Memory,
            (true, place) => Message::Vector { id, count: 1 + ((place - START) as u64 % self.vectors) as u8 },
        }
    }
}

impl Iterator for SentMessages<'_> {
    type Item = Sent;

    fn next(&mut self) -> Option<Sent> {
        let (&[client, record @ ..], rest) = self.rest.split_first_chunk::<SENT_BYTES>()?;
        let message = self.message(record[1]);
        (self.rest, self.place) = (rest, self.place + 1);
        Some(Sent { client, message, record })
    }

    fn size_hint(&self) -> (usize, Option<usize>) {
        let left = self.rest.len() / SENT_BYTES;
        (left, Some(left))
    }
}

impl ExactSizeIterator for SentMessages<'_> {}

impl FusedIterator for SentMessages<'_> {}

/// A message that the host sends: the eight bytes of [`bytes`](Sent::bytes) to the client, together with
/// [`descriptor`](Sent::descriptor).
#[derive(Clone, Copy, Debug, PartialEq, Eq, Hash)]
pub struct Sent {
    /// To whom it goes.
    pub client: u8,
    /// What it says, as the client's [`Reader`](crate::Reader) answers it where it is configured for the same number of vectors.
    pub message: Message,
    /// The record, for such a reader.
    pub record: [u8; RECORD_BYTES],
}

impl Sent {
    /// The descriptor that goes with the message, if one does.
    #[must_use]
    pub const fn descriptor(&self) -> Option<Descriptor> {
        match self.message {
            Message::Memory => Some(Descriptor::Memory),
            Message::Vector { id, count: count @ 1.. } => Some(Descriptor::Vector { id, vector: count - 1 }),
            _ => None,
        }
    }

    /// What goes over the socket: the number, its lowest byte first.
    #[must_use]
    pub const fn bytes(&self) -> [u8; RECORD_BYTES - 1] {
        let [_, bytes @ ..] = self.record;
        bytes
    }
}

/// Which of the host's descriptors goes with a message.
#[derive(Clone, Copy, Debug, PartialEq, Eq, Hash)]
pub enum Descriptor {
    /// That of the shared memory.
    Memory,
    /// That of a client's vector: for sending to that client, and where the message goes to the client itself for receiving.
    Vector {
        /// Whose vector it is.
        id: u8,
        /// Which of its vectors, from 0 on.
        vector: u8,
    },
}

impl Started {
    /// The state, or the refusal.
    ///
    /// # Errors
    /// The refusal whose number the answer holds.
    pub fn result(self) -> Result<raw::Server, Refusal> {
        Refusal::of_server(self.number).map_or(Ok(self.server), Err)
    }
}

impl Served {
    /// The answer itself, or the refusal.
    ///
    /// # Errors
    /// The refusal whose number the answer holds.
    pub fn result(self) -> Result<Served, Refusal> {
        Refusal::of_server(self.number).map_or(Ok(self), Err)
    }
}
