//! A verified reader of the old ivshmem server's messages, and a verified writer of them.
//!
//! A client of that server gets messages on a socket: numbers of eight bytes, each with a file descriptor or without one. First
//! come the version, the client's own id and the shared memory; then, for each peer and for the client itself, a descriptor for
//! each vector, and the ids of peers that leave. The reader says what each message means, counts the vectors of each peer, and
//! notices where the server does not keep to its protocol. The server's side is told who joins and who leaves, and says which
//! messages go to whom. Both are proved and linked as a static library; this crate makes it safe to call. It allocates nothing and
//! needs no standard library.
//!
//! A [`Reader`] is fed a stream of records, cut anywhere. A record is a byte that is 1 where the message has a descriptor and 0
//! where it has none, then the message's number in eight bytes, the lowest first ([`record`] makes one). So a host puts one byte
//! in front of each eight that it receives. Any other byte closes, as for a message with several descriptors.
//!
//! # What a host has to know
//!
//! - **Descriptors** never come here; the host keeps them beside the messages, in their order. That of [`Message::Memory`] is the
//!   shared memory. That of [`Message::Vector`] is for vector `count - 1` of the peer, or for receiving that vector where the id
//!   is the client's own. That of [`Message::Extra`] is to be closed, and so is that of a record that answers
//!   [`Message::Closed`]. With [`Message::Disconnected`] those of the peer's vectors are to be closed.
//! - **A close is for good.** After a record that is not in place the reader answers every record with [`Message::Closed`], and
//!   the host closes the connection. Own id and counts stay as they were, so that peers can go on talking to each other.
//! - **Records are answered one by one.** [`Reader::read`] takes bytes up to the end of one record and says how many;
//!   [`Reader::messages`] goes on to the end of the piece.
//!
//! # Example
//!
//! The server tells client 5 of one peer, 2, with two vectors, of which the client is configured for one.
//!
//! ```
//! use ivshmem_protocol::{Message, Reader, Refusal, record};
//!
//! # fn main() -> Result<(), Refusal> {
//! let mut reader = Reader::new(1)?;
//! let start = [record(false, 0), record(false, 5), record(true, -1)].concat();
//! let messages: Vec<_> = reader.messages(&start).collect();
//! assert_eq!(messages, [Message::Version, Message::Id(5), Message::Memory]);
//! assert_eq!(reader.own_id(), Some(5));
//!
//! // The pieces are cut anywhere: the first record of peer 2 ends in the second piece.
//! let peers = [record(true, 2), record(true, 2), record(true, 5), record(false, 2)].concat();
//! let (first, second) = peers.split_at(4);
//! assert_eq!(reader.messages(first).next(), None);
//! let messages: Vec<_> = reader.messages(second).collect();
//! let (vector, own) = (Message::Vector { id: 2, count: 1 }, Message::Vector { id: 5, count: 1 });
//! assert_eq!(messages, [vector, Message::Extra { id: 2, count: 1 }, own, Message::Disconnected { id: 2 }]);
//! assert_eq!((reader.count(2), reader.count(5)), (0, 1));
//!
//! // Peer 2 is not there any more, so that it cannot leave.
//! let read = reader.read(&record(false, 2));
//! assert_eq!((read.message, read.taken), (Message::Closed, 9));
//! assert!(reader.is_closed());
//! # Ok(())
//! # }
//! ```
//!
//! # The server's side
//!
//! A [`Server`] is told of each client that joins or leaves. Each call writes the messages that are to be sent to a buffer that it
//! is lent, and [`SentMessages`] goes through them in their order: to which client, the bytes, and which [`Descriptor`] goes with
//! them. The host keeps the sockets, the shared memory and the descriptors of each client's vectors, and makes the latter when the
//! client joins.
//!
//! - **Ids** are given by the server: a join takes the lowest that is free, also where a client before it had it. 64 clients can
//!   be joined.
//! - **A leaver hears nothing.** The messages of a leave go to the others, who close the descriptors of its vectors.
//! - **What is proved**, with the reader above: whoever joins and leaves, a client's reader that is configured for the same number
//!   of vectors never answers [`Message::Extra`] or [`Message::Closed`], and has counted all vectors of each id that is joined,
//!   its own among them, and none of any other.
//!
//! Here one client joins and then another, which has a reader; then the first leaves.
//!
//! ```
//! use ivshmem_protocol::{BUFFER_BYTES, Descriptor, Message, Reader, Refusal, Server};
//!
//! # fn main() -> Result<(), Refusal> {
//! let mut server = Server::new(1)?;
//! let mut buffer = [0; BUFFER_BYTES];
//! let joined = server.join(&mut buffer)?;
//! assert_eq!(joined.id, 0);
//! let sent: Vec<_> = joined.messages.map(|sent| (sent.client, sent.message)).collect();
//! let own = Message::Vector { id: 0, count: 1 };
//! assert_eq!(sent, [(0, Message::Version), (0, Message::Id(0)), (0, Message::Memory), (0, own)]);
//!
//! // Where a host sends `sent.bytes()` with the descriptor, this reader takes the record.
//! let mut reader = Reader::new(1)?;
//! let mut descriptors = Vec::new();
//! for sent in server.join(&mut buffer)?.messages.filter(|sent| sent.client == 1) {
//!     assert_eq!(reader.read(&sent.record).message, sent.message);
//!     descriptors.extend(sent.descriptor());
//! }
//! let [of_other, of_own] = [0, 1].map(|id| Descriptor::Vector { id, vector: 0 });
//! assert_eq!(descriptors, [Descriptor::Memory, of_other, of_own]);
//! assert_eq!((reader.own_id(), reader.count(0), reader.count(1)), (Some(1), 1, 1));
//!
//! let mut messages = server.leave(0, &mut buffer)?;
//! let sent = messages.next().expect("a message to client 1");
//! assert_eq!((sent.client, sent.message, messages.len()), (1, Message::Disconnected { id: 0 }, 0));
//! assert_eq!(server.joined().collect::<Vec<_>>(), [1]);
//! # Ok(())
//! # }
//! ```

#![no_std]
#![deny(unsafe_code)]
#![deny(missing_docs)]

#[allow(unsafe_code)]
mod boundary;
mod message;
mod reader;
mod refusal;
mod server;

pub use message::{Due, Message, Read};
pub use reader::{Messages, Reader};
pub use refusal::Refusal;
pub use server::{Descriptor, Joined, Sent, SentMessages, Server};

/// The version of this crate, which is that of the header and of the library.
pub const VERSION: &str = env!("CARGO_PKG_VERSION");
/// The number of the library's interface. An archive of another interface does not link.
pub const INTERFACE: u32 = 1;
/// How many ids there are, from 0 on; the bytes of the buffer of counts.
pub const IDS: usize = 64;
/// The most vectors that a reader or a server can be configured for.
pub const MAX_VECTORS: u64 = 16;
/// Bytes of a record.
pub const RECORD_BYTES: usize = 9;
/// The most bytes that are held between two calls.
pub const HELD_BYTES: usize = 8;
/// Bytes of a message that a server writes: the id of the client that it goes to, and a record.
pub const SENT_BYTES: usize = 10;
/// The most messages that a call of a server writes: the join of the last of 64 clients, with 16 vectors.
pub const MAX_SENT: usize = 2035;
/// The fewest bytes of the buffer that a server's calls are lent, however many messages they write.
pub const BUFFER_BYTES: usize = 20350;

/// The record of a message with this number, and with a descriptor or without one.
#[must_use]
pub const fn record(descriptor: bool, number: i64) -> [u8; RECORD_BYTES] {
    let [a, b, c, d, e, f, g, h] = number.to_le_bytes();
    [descriptor as u8, a, b, c, d, e, f, g, h]
}

/// The C calls over slices of any length, with their plain answers.
///
/// [`Reader`] and [`Server`] are built on them. A host that keeps the progress record and the counts, or a server's state, itself,
/// say to store them, calls them directly: any numbers may be handed in, and what is not in order is refused.
pub mod raw {
    pub use crate::boundary::{Answer, Progress, Served, Server, Started, join, leave, read, start};
}
