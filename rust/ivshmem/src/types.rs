//! Numbers with a meaning of their own, the set-up numbers and the sections.

use core::fmt;
use core::num::TryFromIntError;

use crate::raw::SectionReply;
use crate::{MAX_PEERS, MAX_VECTORS, Refusal, hub_words};

/// A peer's id, from 0. A wider number becomes one by `try_from`, which refuses what 16 bits do not hold.
#[repr(transparent)]
#[derive(Clone, Copy, Debug, Default, PartialEq, Eq, PartialOrd, Ord, Hash)]
pub struct PeerId(pub u16);

/// An MSI-X vector's number, from 0. A wider number becomes one by `try_from`, which refuses what 16 bits do not hold.
#[repr(transparent)]
#[derive(Clone, Copy, Debug, Default, PartialEq, Eq, PartialOrd, Ord, Hash)]
pub struct Vector(pub u16);

impl fmt::Display for PeerId {
    fn fmt(&self, f: &mut fmt::Formatter<'_>) -> fmt::Result {
        self.0.fmt(f)
    }
}

impl fmt::Display for Vector {
    fn fmt(&self, f: &mut fmt::Formatter<'_>) -> fmt::Result {
        self.0.fmt(f)
    }
}

macro_rules! from_wider_numbers {
    ($($name:ident from $wide:ty),*) => {$(
        impl TryFrom<$wide> for $name {
            type Error = TryFromIntError;

            fn try_from(number: $wide) -> Result<$name, TryFromIntError> {
                number.try_into().map($name)
            }
        }
    )*};
}

from_wider_numbers!(PeerId from u32, PeerId from u64, PeerId from usize);
from_wider_numbers!(Vector from u32, Vector from u64, Vector from usize);

/// The numbers that a hub is set up with. Sizes are in bytes. It is `ivshmem_settings` of the C header.
#[repr(C)]
#[derive(Clone, Copy, Debug, PartialEq, Eq, Hash)]
pub struct Settings {
    /// How many peers there are: 2 to [`MAX_PEERS`](crate::MAX_PEERS).
    pub peers: u64,
    /// How many vectors each peer has: 1 to [`MAX_VECTORS`](crate::MAX_VECTORS).
    pub vectors: u64,
    /// Size of the State Table: a nonzero multiple of 4096, at least 4 for each peer.
    pub state_table: u64,
    /// Size of the read/write section: a multiple of 4096, or 0.
    pub read_write: u64,
    /// Size of each peer's output section: a multiple of 4096, or 0.
    pub output: u64,
    /// The region's guest physical address: a multiple of 4096, at least [`MIN_BASE`](crate::MIN_BASE), with address + total
    /// at most 2^64.
    pub base: u64,
    /// Protocol type: what the peers speak.
    pub protocol: u16,
    /// PCI subsystem vendor id.
    pub subsystem_vendor: u16,
    /// PCI subsystem id.
    pub subsystem_id: u16,
}

/// The smallest hub, which set-up takes: two peers with one vector, a State Table of one page and no other section, the region
/// at 4 GiB.
impl Default for Settings {
    fn default() -> Settings {
        Settings {
            peers: 2,
            vectors: 1,
            state_table: 4096,
            read_write: 0,
            output: 0,
            base: 0x1_0000_0000,
            protocol: 0,
            subsystem_vendor: 0,
            subsystem_id: 0,
        }
    }
}

impl Settings {
    /// The length of the region that a hub with these settings is lent: state table, read/write section and all output
    /// sections. At most 2^30 where the settings are accepted; nothing where the sum does not fit.
    #[must_use]
    pub fn total(&self) -> Option<usize> {
        let outputs = self.peers.checked_mul(self.output)?;
        let total = self.state_table.checked_add(self.read_write)?.checked_add(outputs)?;
        usize::try_from(total).ok()
    }

    /// How many words a hub with these settings is lent: [`hub_words`](crate::hub_words) of its peers and vectors. Nothing
    /// where there are more of them than a hub can have, which set-up refuses.
    #[must_use]
    pub fn hub_words(&self) -> Option<usize> {
        let peers = usize::try_from(self.peers).ok().filter(|&peers| peers <= MAX_PEERS)?;
        let vectors = usize::try_from(self.vectors).ok().filter(|&vectors| vectors <= MAX_VECTORS)?;
        Some(hub_words(peers, vectors))
    }
}

/// A section of the shared region.
///
/// A later library may have kinds that this crate does not know, so a `match` needs an arm for all others.
#[derive(Clone, Copy, Debug, PartialEq, Eq, Hash)]
#[non_exhaustive]
pub enum Section {
    /// The State Table: no peer stores to it.
    StateTable,
    /// The read/write section: every peer stores to it.
    ReadWrite,
    /// The output section of one peer, which alone stores to it.
    Output(PeerId),
    /// A kind that this crate does not know, or an owner that is no peer's id.
    Unknown {
        /// The kind's number.
        kind: u32,
        /// The owner, as the library has answered it.
        owner: u32,
    },
}

/// The section that a range lies in, and whether the asking peer may store to it.
#[derive(Clone, Copy, Debug, PartialEq, Eq, Hash)]
pub struct Placement {
    /// The section that holds the whole range.
    pub section: Section,
    /// Whether the asking peer may store there.
    pub may_store: bool,
}

impl SectionReply {
    /// The section and the right to store, or the refusal. A kind that has no name here is [`Section::Unknown`], and a right that
    /// is not 1 is none.
    ///
    /// # Errors
    /// The refusal whose number the reply holds.
    pub fn result(self) -> Result<Placement, Refusal> {
        self.reply.result()?;
        let section = match (self.kind, PeerId::try_from(self.owner)) {
            (1, _) => Section::StateTable,
            (2, _) => Section::ReadWrite,
            (3, Ok(owner)) => Section::Output(owner),
            (kind, _) => Section::Unknown { kind, owner: self.owner },
        };
        Ok(Placement { section, may_store: self.store == 1 })
    }
}
