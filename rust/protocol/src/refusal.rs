//! Why a call was refused.

use core::error::Error;
use core::fmt;

/// Why a call was refused. A refused call has changed nothing. Where several reasons apply, the first in this order is given: for
/// a reader [`BadVectors`](Refusal::BadVectors), [`BadCounts`](Refusal::BadCounts), [`BadProgress`](Refusal::BadProgress); for a
/// server [`BadServer`](Refusal::BadServer), [`ShortBuffer`](Refusal::ShortBuffer), then [`Full`](Refusal::Full) of a join and
/// [`NotJoined`](Refusal::NotJoined) of a leave. A start is refused with [`BadVectors`](Refusal::BadVectors) alone.
///
/// A later library may have numbers that this crate does not know. They keep their number in [`Unknown`](Refusal::Unknown), and
/// none is taken for another; so a `match` needs an arm for all others.
#[derive(Clone, Copy, Debug, PartialEq, Eq, Hash)]
#[non_exhaustive]
pub enum Refusal {
    /// 1: the configured number of vectors is not 1 to 16.
    BadVectors,
    /// 2: the buffer of counts does not have 64 bytes.
    BadCounts,
    /// 4: the id that is to leave is not joined.
    NotJoined,
    /// 10, of a reader: the progress record and the counts are none that a reader can have. The due step is unknown, the own id is above 63,
    /// more than 8 bytes are held, or a count is above the configured number; or the own id is not 0 while the version or the id
    /// is due, or a count while the version, the id or the memory is.
    BadProgress,
    /// 10, of a server: its number of vectors is not 1 to 16.
    BadServer,
    /// 11: the buffer has fewer than 20350 bytes, which is what the longest list of messages needs.
    ShortBuffer,
    /// 12: all 64 ids are joined.
    Full,
    /// A number that has no name here. [`Refusal::from_number`] makes it of such a number alone.
    Unknown(u32),
}

impl Refusal {
    /// Every refusal that this crate knows, in the order of their numbers.
    pub const ALL: [Refusal; 7] = [
        Refusal::BadVectors,
        Refusal::BadCounts,
        Refusal::NotJoined,
        Refusal::BadProgress,
        Refusal::BadServer,
        Refusal::ShortBuffer,
        Refusal::Full,
    ];

    /// The refusal's number: 1, 2, 4, 10, 11 or 12, or the unknown one.
    #[must_use]
    pub const fn number(self) -> u32 {
        match self {
            Refusal::BadVectors => 1,
            Refusal::BadCounts => 2,
            Refusal::NotJoined => 4,
            Refusal::BadProgress | Refusal::BadServer => 10,
            Refusal::ShortBuffer => 11,
            Refusal::Full => 12,
            Refusal::Unknown(number) => number,
        }
    }

    /// The refusal with this number; nothing for 0, which is none. 10 is that of a reader.
    #[must_use]
    pub fn from_number(number: u32) -> Option<Refusal> {
        let known = Refusal::ALL.into_iter().find(|refusal| refusal.number() == number);
        known.or((number != 0).then_some(Refusal::Unknown(number)))
    }

    /// The same of a server, whose 10 is another.
    pub(crate) fn of_server(number: u32) -> Option<Refusal> {
        match Refusal::from_number(number) {
            Some(Refusal::BadProgress) => Some(Refusal::BadServer),
            refusal => refusal,
        }
    }

    /// The reason in words.
    #[must_use]
    pub const fn reason(self) -> &'static str {
        match self {
            Refusal::BadVectors => "the configured number of vectors is outside its range",
            Refusal::BadCounts => "there is not one count for each id",
            Refusal::NotJoined => "the id is not joined",
            Refusal::BadProgress => "no stream with so many vectors leaves this progress and these counts",
            Refusal::BadServer => "no server has this number of vectors",
            Refusal::ShortBuffer => "the buffer is shorter than the longest list of messages",
            Refusal::Full => "all ids are joined",
            Refusal::Unknown(_) => "an unknown number",
        }
    }
}

/// The reason, and the number where it is an unknown one.
impl fmt::Display for Refusal {
    fn fmt(&self, f: &mut fmt::Formatter<'_>) -> fmt::Result {
        match self {
            Refusal::Unknown(number) => write!(f, "{}, {number}", self.reason()),
            _ => f.write_str(self.reason()),
        }
    }
}

impl Error for Refusal {}
