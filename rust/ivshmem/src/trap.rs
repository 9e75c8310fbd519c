//! What becomes of a guest's access: loads and stores of any length, at any offset, as a hypervisor traps them.
//!
//! [`Trap`] is one space of one peer, with the shape that device models have in Rust hypervisors: [`read`](Trap::read) and
//! [`write`](Trap::write) of bytes at an offset. A host whose vCPUs read at the same time calls [`read`] instead, which needs
//! only a shared hub.
//!
//! # What the guest gets
//!
//! A byte that no accepted call has answered reads FFh, and a store that is refused is dropped: the 0 beside a refused read never
//! reaches a guest. The spaces differ in how an access is cut:
//!
//! - **Configuration**: into naturally aligned pieces of 4, 2 or 1 bytes, lowest first, each the largest that fits. That cutting
//!   changes nothing is proved. Bytes from 256 on read FFh and ignore stores, as of a device without extended configuration
//!   space.
//! - **Registers** (BAR 0): not cut and not widened. Aligned accesses of 4 bytes are taken, all others refused: 8 bytes at 08h,
//!   cut in two, would ring the Doorbell, and one byte, widened, would store what the guest never stored.
//! - **MSI-X** (BAR 1): an access of 8 bytes at a multiple of 8 is two of 4 bytes, the lower first, as PCI lets a driver use the
//!   table; else as BAR 0.
//! - **Shared**: at multiples of 4096, so that each piece lies in one section or in none. A piece that is refused reads FFh or is
//!   dropped, and the others are done, which is what a mapping would do. Offsets are guest physical addresses less the base.
//!
//! # What the host is told
//!
//! An empty slot is no error ([`NotConnected`](Refusal::NotConnected)), nor is a refusal that is a guest's own doing
//! ([`BadWidth`](Refusal::BadWidth), [`Misaligned`](Refusal::Misaligned), [`OutOfRange`](Refusal::OutOfRange),
//! [`ReadOnly`](Refusal::ReadOnly)). Every other comes back as `Err`. It is the host's own fault, since no guest can bring it
//! about: damaged words ([`UnsoundHub`](Refusal::UnsoundHub)), a region of another length ([`BadRegion`](Refusal::BadRegion)), a
//! short table ([`ShortTable`](Refusal::ShortTable)) or a wrong id ([`NoSuchPeer`](Refusal::NoSuchPeer)). These are found before
//! anything is done, so that the access has changed nothing and its bytes are all FFh. The guest may go on; the host reports the
//! fault. A number that this crate does not know, of a later library, is `Err` too.
//!
//! # What the host does
//!
//! - It injects the deliveries of a write in their order, all of them, before the next call on the hub. They are for the host
//!   alone.
//! - After a write that [`moves_traps`], and after a connect, reset or disconnect, it asks for [`bars`] and moves its traps.
//! - It maps the pages of the region with their [`rights`] after it has connected the peer, whatever Command holds, and unmaps
//!   them before it disconnects it. Then only stores to read-only pages trap. A host that maps nothing passes every access.
//! - It connects a peer before its guest's first access, resets it when the guest reboots or its bus is reset, and disconnects it
//!   when the guest shuts down, crashes or is unplugged. No guest makes these calls.
//!
//! ```
//! use ivshmem::trap::{self, Rights, Space, Trap};
//! use ivshmem::{Delivery, Hub, PeerId, Refusal, Region, Settings, configuration, hub_words};
//!
//! # fn main() -> Result<(), Refusal> {
//! let settings = Settings { output: 4096, ..Settings::default() };
//! let (mut words, mut bytes, mut table) = ([0; hub_words(2, 1)], vec![0; 3 * 4096], [Delivery::default(); 2]);
//! let mut region = Region::from_slice(&mut bytes);
//! let mut hub = Hub::set_up_at(&mut words, &settings, &mut region)?;
//! let peer = PeerId(0);
//! hub.connect(peer)?;
//!
//! // A guest places BAR 0 and BAR 1 by one store of 8 bytes, and switches them on.
//! let places = 0xfebd_1000_febd_0000_u64.to_le_bytes();
//! let mut space = Trap::new(hub.reborrow(), region.reborrow(), &mut table, peer, Space::Configuration);
//! assert!(space.write(configuration::BAR0, &places)?.is_empty());
//! assert!(space.write(configuration::COMMAND, &[0x06])?.is_empty());
//! assert!(trap::moves_traps(configuration::BAR0, 8) && trap::moves_traps(configuration::COMMAND, 1));
//! assert_eq!(trap::bars(&hub, peer)?, [Some(0xfebd_0000), Some(0xfebd_1000)]);
//!
//! // It reads its State, and then two bytes of it, which the device does not have.
//! let space = Trap::new(hub.reborrow(), region.reborrow(), &mut table, peer, Space::Registers);
//! let (mut four, mut two) = ([0; 4], [0; 2]);
//! space.read(0x10, &mut four)?;
//! space.read(0x10, &mut two)?;
//! assert_eq!((four, two), ([0; 4], [0xff; 2]));
//!
//! // The other's output section is mapped read-only, the own one is not.
//! assert_eq!(trap::rights(&hub, peer, 2 * 4096, 4096)?, Rights::Read);
//! assert_eq!(trap::rights(&hub, peer, 4096, 4096)?, Rights::ReadWrite);
//! # Ok(())
//! # }
//! ```

use core::ops::Range;
use core::{iter, mem};

use crate::{CONFIGURATION_BYTES, Delivery, Hub, PeerId, Placement, Refusal, Region, Section, configuration};

/// Shared accesses are cut at multiples of this; every section is whole pages.
const PAGE: u64 = 4096;

/// A space that a guest's access goes to.
#[derive(Clone, Copy, Debug, PartialEq, Eq, Hash)]
#[non_exhaustive]
pub enum Space {
    /// Configuration space.
    Configuration,
    /// The register region, BAR 0.
    Registers,
    /// The MSI-X region, BAR 1.
    Msix,
    /// The shared region.
    Shared,
}

/// What a page of the region is mapped with.
#[derive(Clone, Copy, Debug, PartialEq, Eq, Hash)]
pub enum Rights {
    /// It is not mapped.
    Nothing,
    /// The guest may load from it.
    Read,
    /// The guest may load from it and store to it.
    ReadWrite,
}

/// One space of one peer.
///
/// It borrows what it works on, so a host makes it for each access, or keeps it where nothing else calls the hub.
#[derive(Debug)]
pub struct Trap<'a> {
    hub: Hub<'a>,
    region: Region<'a>,
    table: &'a mut [Delivery],
    peer: PeerId,
    space: Space,
}

impl<'a> Trap<'a> {
    /// The space of the peer, over what is lent to the calls. The table has at least as many records as there are peers.
    #[must_use]
    pub const fn new(
        hub: Hub<'a>,
        region: Region<'a>,
        table: &'a mut [Delivery],
        peer: PeerId,
        space: Space,
    ) -> Trap<'a> {
        Trap { hub, region, table, peer, space }
    }

    /// Fills `data` with what the guest reads at the offset.
    ///
    /// # Errors
    /// The host's own fault; `data` is then all ones.
    pub fn read(&self, offset: u64, data: &mut [u8]) -> Result<(), Refusal> {
        read(&self.hub, &self.region, self.peer, self.space, offset, data)
    }

    /// Does what the guest's store of `data` at the offset does, and answers the interrupts to inject, in order.
    ///
    /// # Errors
    /// The host's own fault; nothing is then changed.
    #[must_use = "the deliveries are interrupts to inject"]
    pub fn write(&mut self, offset: u64, data: &[u8]) -> Result<&[Delivery], Refusal> {
        write(&mut self.hub, &mut self.region, self.table, self.peer, self.space, offset, data)
    }
}

/// [`Trap::read`] with a shared hub: reads may run at the same time.
///
/// # Errors
/// The host's own fault; `data` is then all ones.
pub fn read(
    hub: &Hub<'_>,
    region: &Region<'_>,
    peer: PeerId,
    space: Space,
    offset: u64,
    data: &mut [u8],
) -> Result<(), Refusal> {
    data.fill(0xff);
    for (at, range) in pieces(space, offset, data.len()) {
        let piece = &mut data[range];
        let width = piece.len() as u64;
        let value = match space {
            Space::Configuration => hub.configuration_read(peer, at, width),
            Space::Registers => hub.register_read(peer, at, width),
            Space::Msix => hub.msix_read(peer, at, width),
            Space::Shared => {
                taken(hub.load_at(region, peer, at, piece))?;
                continue;
            }
        };
        if let Some(value) = taken(value)? {
            piece.iter_mut().zip(value.to_le_bytes()).for_each(|(byte, answered)| *byte = answered);
        }
    }
    Ok(())
}

/// [`Trap::write`] with the parts lent to this call.
///
/// # Errors
/// The host's own fault; nothing is then changed.
#[must_use = "the deliveries are interrupts to inject"]
pub fn write<'t>(
    hub: &mut Hub<'_>,
    region: &mut Region<'_>,
    table: &'t mut [Delivery],
    peer: PeerId,
    space: Space,
    offset: u64,
    data: &[u8],
) -> Result<&'t [Delivery], Refusal> {
    let mut delivered = 0;
    for (at, range) in pieces(space, offset, data.len()) {
        let piece = &data[range];
        let (width, value) = (piece.len() as u64, value_of(piece));
        taken(match space {
            Space::Configuration => hub.configuration_write(peer, at, width, value),
            // One piece at the most, so that no later one writes over its records.
            Space::Registers => {
                hub.register_write_at(region, table, peer, at, width, value).map(|records| delivered = records.len())
            }
            Space::Msix => hub.msix_write(peer, at, width, value),
            Space::Shared => hub.store_at(region, peer, at, piece),
        })?;
    }
    Ok(&table[..delivered])
}

/// Whether a write of so many bytes at an offset of configuration space may have moved BAR 0 or BAR 1: it touches the byte of
/// Command that switches them, or one of theirs.
#[must_use]
pub const fn moves_traps(offset: u64, length: usize) -> bool {
    let end = offset.saturating_add(length as u64);
    let command = offset <= configuration::COMMAND && end > configuration::COMMAND;
    let bars = offset < configuration::BAR1 + 4 && end > configuration::BAR0;
    length != 0 && (command || bars)
}

/// Where BAR 0 and BAR 1 are to be trapped now: 4096 bytes from each address on. Nowhere while Command bit 1 is off, and for a
/// peer that is not connected.
///
/// # Errors
/// The host's own fault.
pub fn bars(hub: &Hub<'_>, peer: PeerId) -> Result<[Option<u32>; 2], Refusal> {
    let read = |offset, width| taken(hub.configuration_read(peer, offset, width));
    let command = read(configuration::COMMAND, 2)?.unwrap_or(0);
    if command & configuration::COMMAND_MEMORY == 0 {
        return Ok([None; 2]);
    }
    Ok([read(configuration::BAR0, 4)?, read(configuration::BAR1, 4)?])
}

/// What a range of the region is mapped with for the peer: nothing while the peer is not connected, and where the range is not
/// whole in one section. Sections are whole pages, so a host asks for each page or for each section.
///
/// # Errors
/// The host's own fault.
pub fn rights(hub: &Hub<'_>, peer: PeerId, offset: u64, length: u64) -> Result<Rights, Refusal> {
    Ok(taken(hub.section_question(peer, offset, length))?.map_or(Rights::Nothing, Rights::from))
}

/// Of a section that this crate does not know nothing is mapped: its accesses trap, and the library answers each.
impl From<Placement> for Rights {
    fn from(placement: Placement) -> Rights {
        match placement {
            Placement { section: Section::Unknown { .. }, .. } => Rights::Nothing,
            Placement { may_store: true, .. } => Rights::ReadWrite,
            Placement { may_store: false, .. } => Rights::Read,
        }
    }
}

/// The pieces of an access, lowest first: where each stands in its space, and which bytes of the access it has. Bytes that no
/// space has are in none.
fn pieces(space: Space, offset: u64, length: usize) -> impl Iterator<Item = (u64, Range<usize>)> {
    let mut start = 0;
    iter::from_fn(move || {
        let at = offset.checked_add(start as u64)?;
        let end = start + first_piece(space, at, length - start)?;
        Some((at, mem::replace(&mut start, end)..end))
    })
}

/// How long the first piece of an access is; nothing where there is none.
fn first_piece(space: Space, at: u64, length: usize) -> Option<usize> {
    let piece = match space {
        Space::Configuration if at >= CONFIGURATION_BYTES => 0,
        Space::Configuration if length >= 4 && at.is_multiple_of(4) => 4,
        Space::Configuration if length >= 2 && at.is_multiple_of(2) => 2,
        Space::Configuration => length.min(1),
        Space::Msix if length == 8 && at.is_multiple_of(8) => 4,
        Space::Registers | Space::Msix => length,
        Space::Shared => length.min((PAGE - at % PAGE) as usize),
    };
    (piece != 0).then_some(piece)
}

/// The bytes of a piece as a number. Only pieces of up to 4 bytes are taken with a number.
fn value_of(piece: &[u8]) -> u32 {
    piece.iter().take(4).rev().fold(0, |value, &byte| value << 8 | u32::from(byte))
}

/// What was answered; nothing where the slot is empty or the refusal is a guest's own doing.
fn taken<T>(answer: Result<T, Refusal>) -> Result<Option<T>, Refusal> {
    use Refusal::{BadWidth, Misaligned, NotConnected, OutOfRange, ReadOnly};
    match answer {
        Ok(value) => Ok(Some(value)),
        Err(NotConnected | BadWidth | Misaligned | OutOfRange | ReadOnly) => Ok(None),
        Err(fault) => Err(fault),
    }
}
