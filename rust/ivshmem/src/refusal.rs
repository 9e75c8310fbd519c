//! Why a call was refused.

use core::error::Error;
use core::fmt;

use crate::raw::Reply;

/// Why a call was refused. A refused call has changed nothing and delivered nothing; only a refused set-up leaves all of the
/// words that it was lent zero.
///
/// Where several reasons apply, the first in this order is given: [`BadSetting`](Refusal::BadSetting), which set-up alone
/// gives, [`UnsoundHub`](Refusal::UnsoundHub), [`BadRegion`](Refusal::BadRegion), [`ShortTable`](Refusal::ShortTable),
/// [`NoSuchPeer`](Refusal::NoSuchPeer), [`NotConnected`](Refusal::NotConnected) or [`Connected`](Refusal::Connected),
/// [`BadWidth`](Refusal::BadWidth), [`Misaligned`](Refusal::Misaligned), [`OutOfRange`](Refusal::OutOfRange),
/// [`ReadOnly`](Refusal::ReadOnly).
///
/// A later library may have numbers that this crate does not know. They keep their number in [`Unknown`](Refusal::Unknown), and
/// none is taken for another; so a `match` needs an arm for all others.
#[derive(Clone, Copy, Debug, PartialEq, Eq, Hash)]
#[non_exhaustive]
pub enum Refusal {
    /// 1: a set-up number is outside its range.
    BadSetting,
    /// 2: the region's length is not the total of the set-up.
    BadRegion,
    /// 3: the id is not below the number of peers.
    NoSuchPeer,
    /// 4: the peer is not connected.
    NotConnected,
    /// 5: connect of a connected peer.
    Connected,
    /// 6: the width is not allowed, or a shared length is 0.
    BadWidth,
    /// 7: the offset is not a multiple of the width.
    Misaligned,
    /// 8: the access runs past the end of its space, or a shared range is not whole in one section.
    OutOfRange,
    /// 9: a store to the State Table or to another peer's output section.
    ReadOnly,
    /// 10: the words handed in are not a sound hub; at set-up, they are not as many as the settings ask for.
    UnsoundHub,
    /// 11: the delivery table has fewer records than there are peers.
    ShortTable,
    /// A number above 11, which has no name here. [`Refusal::from_number`] makes it of such a number alone.
    Unknown(u32),
}

impl Refusal {
    /// Every refusal that this crate knows, in the order of their numbers.
    pub const ALL: [Refusal; 11] = [
        Refusal::BadSetting,
        Refusal::BadRegion,
        Refusal::NoSuchPeer,
        Refusal::NotConnected,
        Refusal::Connected,
        Refusal::BadWidth,
        Refusal::Misaligned,
        Refusal::OutOfRange,
        Refusal::ReadOnly,
        Refusal::UnsoundHub,
        Refusal::ShortTable,
    ];

    /// The refusal's number, 1 to 11, or the unknown one.
    #[must_use]
    pub const fn number(self) -> u32 {
        match self {
            Refusal::BadSetting => 1,
            Refusal::BadRegion => 2,
            Refusal::NoSuchPeer => 3,
            Refusal::NotConnected => 4,
            Refusal::Connected => 5,
            Refusal::BadWidth => 6,
            Refusal::Misaligned => 7,
            Refusal::OutOfRange => 8,
            Refusal::ReadOnly => 9,
            Refusal::UnsoundHub => 10,
            Refusal::ShortTable => 11,
            Refusal::Unknown(number) => number,
        }
    }

    /// The refusal with this number; nothing for 0, which is none.
    #[must_use]
    pub fn from_number(number: u32) -> Option<Refusal> {
        let known = Refusal::ALL.into_iter().find(|refusal| refusal.number() == number);
        known.or((number != 0).then_some(Refusal::Unknown(number)))
    }

    /// The reason in words.
    #[must_use]
    pub const fn reason(self) -> &'static str {
        match self {
            Refusal::BadSetting => "a set-up number is outside its range",
            Refusal::BadRegion => "the region's length is not the total of the set-up",
            Refusal::NoSuchPeer => "there is no peer with this id",
            Refusal::NotConnected => "the peer is not connected",
            Refusal::Connected => "the peer is already connected",
            Refusal::BadWidth => "this width is not allowed here",
            Refusal::Misaligned => "the offset is not a multiple of the width",
            Refusal::OutOfRange => "the range is not whole inside one space or section",
            Refusal::ReadOnly => "the peer may not store to this section",
            Refusal::UnsoundHub => "the words are not a sound hub, or not as many as the set-up asks for",
            Refusal::ShortTable => "the delivery table has fewer records than there are peers",
            Refusal::Unknown(_) => "an unknown number",
        }
    }
}

/// The reason, and the number where it is an unknown one.
impl fmt::Display for Refusal {
    fn fmt(&self, f: &mut fmt::Formatter<'_>) -> fmt::Result {
        match self {
            Refusal::Unknown(number) => write!(f, "{}, {number}", self.reason()),
            _ => f.write_str(self.reason()),
        }
    }
}

impl Error for Refusal {}

impl Reply {
    /// The value read, or the refusal. A refused read has no value: the 0 that stands beside its number is not for a guest,
    /// which must see all ones.
    ///
    /// # Errors
    /// The refusal whose number the reply holds.
    pub fn result(self) -> Result<u32, Refusal> {
        match Refusal::from_number(self.number) {
            None => Ok(self.value),
            Some(refusal) => Err(refusal),
        }
    }
}
