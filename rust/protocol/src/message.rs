//! What a call answers, with names in place of numbers.

use crate::Refusal;
use crate::raw::Answer;

/// What a record means.
///
/// A later library may have messages that this crate does not know, so a `match` needs an arm for all others.
#[derive(Clone, Copy, Debug, PartialEq, Eq, Hash)]
#[non_exhaustive]
pub enum Message {
    /// No record is whole yet; all bytes are held.
    More,
    /// The version, which is 0.
    Version,
    /// The client's own id.
    Id(u8),
    /// The shared memory.
    Memory,
    /// One more vector of a peer, or of the client itself where the id is its own.
    Vector {
        /// Whose vector it is.
        id: u8,
        /// How many vectors it has now; this one is vector `count - 1`.
        count: u8,
    },
    /// A vector above the configured number. It is not counted, and its descriptor is to be closed.
    Extra {
        /// Whose vector it would be.
        id: u8,
        /// How many vectors it has, as before.
        count: u8,
    },
    /// A peer has left, and has no vectors any more.
    Disconnected {
        /// Which peer it is.
        id: u8,
    },
    /// The record is not in place, here or earlier in the stream: the connection is to be closed.
    Closed,
    /// A message that this crate does not know, or one with an id or a count that 8 bits do not hold.
    Unknown {
        /// The message's number.
        message: u32,
        /// The id, as the library has answered it.
        id: u32,
        /// The count, as the library has answered it.
        count: u32,
    },
}

impl Message {
    /// The message in words, without its numbers.
    #[must_use]
    pub const fn text(self) -> &'static str {
        match self {
            Message::More => "no whole record yet",
            Message::Version => "the version",
            Message::Id(_) => "the host's own id",
            Message::Memory => "the shared memory",
            Message::Vector { .. } => "a vector",
            Message::Extra { .. } => "a vector above the configured number",
            Message::Disconnected { .. } => "a peer has left",
            Message::Closed => "closed",
            Message::Unknown { .. } => "an unknown message",
        }
    }
}

/// What one call has read.
#[must_use]
#[derive(Clone, Copy, Debug, PartialEq, Eq, Hash)]
pub struct Read {
    /// The message of the first whole record.
    pub message: Message,
    /// How many bytes of the call's input were taken, up to the end of that record. With [`Message::More`] these are all.
    pub taken: usize,
}

/// What a reader waits for. A later library may know more than this crate, so a `match` needs an arm for all others.
#[derive(Clone, Copy, Debug, PartialEq, Eq, Hash)]
#[non_exhaustive]
pub enum Due {
    /// The version comes next.
    Version,
    /// The own id comes next.
    Id,
    /// The shared memory comes next.
    Memory,
    /// Vectors and peers that leave.
    Peers,
    /// Nothing: the reader is closed.
    Closed,
    /// A step that has no name here. [`Due::from_number`] makes it of such a number alone.
    Unknown(u32),
}

impl Due {
    /// Every step that this crate knows, in the order of their numbers.
    pub const ALL: [Due; 5] = [Due::Version, Due::Id, Due::Memory, Due::Peers, Due::Closed];

    /// The step with this number.
    #[must_use]
    pub const fn from_number(number: u32) -> Due {
        match number {
            0 => Due::Version,
            1 => Due::Id,
            2 => Due::Memory,
            3 => Due::Peers,
            4 => Due::Closed,
            _ => Due::Unknown(number),
        }
    }

    /// The step's number in a progress record.
    #[must_use]
    pub const fn number(self) -> u32 {
        match self {
            Due::Version => 0,
            Due::Id => 1,
            Due::Memory => 2,
            Due::Peers => 3,
            Due::Closed => 4,
            Due::Unknown(number) => number,
        }
    }
}

impl Answer {
    /// The message and the bytes taken, or the refusal. A message that has no name here is [`Message::Unknown`].
    ///
    /// # Errors
    /// The refusal whose number the answer holds.
    pub fn result(&self) -> Result<Read, Refusal> {
        match Refusal::from_number(self.number) {
            None => Ok(Read { message: self.named(), taken: self.taken }),
            Some(refusal) => Err(refusal),
        }
    }

    fn named(&self) -> Message {
        match (self.message, u8::try_from(self.id), u8::try_from(self.count)) {
            (0, ..) => Message::More,
            (1, ..) => Message::Version,
            (2, Ok(id), _) => Message::Id(id),
            (3, ..) => Message::Memory,
            (4, Ok(id), Ok(count)) => Message::Vector { id, count },
            (5, Ok(id), Ok(count)) => Message::Extra { id, count },
            (6, Ok(id), _) => Message::Disconnected { id },
            (7, ..) => Message::Closed,
            (message, ..) => Message::Unknown { message, id: self.id, count: self.count },
        }
    }
}
