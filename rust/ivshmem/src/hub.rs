//! The hub over lent words, one method for each call.

use core::fmt;

use crate::raw::{self, Counted, Delivery, Reply};
use crate::{PeerId, Placement, Refusal, Settings};

/// A hub: words that its user owns and lends to it, as many as the set-up asks for, and nothing else.
///
/// ```
/// # use ivshmem::{Hub, PeerId, Refusal, Settings, hub_words};
/// # fn main() -> Result<(), Refusal> {
/// # let settings = Settings { peers: 4, vectors: 4, state_table: 4096, ..Settings::default() };
/// # let mut region = [0; 4096];
/// // The words stand in an array, where the numbers are known beforehand,
/// let mut words = [0; hub_words(4, 4)];
/// let mut hub = Hub::set_up(&mut words, &settings, &mut region)?;
/// hub.connect(PeerId(0))?;
///
/// // or in a `Vec`. A host that keeps them beside other things makes a `Hub` over them for each call: it is a borrow.
/// let mut words = vec![0; settings.hub_words().ok_or(Refusal::BadSetting)?];
/// Hub::set_up(&mut words, &settings, &mut region)?;
/// Hub::from_words(&mut words).connect(PeerId(0))?;
/// # Ok(())
/// # }
/// ```
///
/// The region and the delivery table are lent to the calls that need them. A table with as many records as there are peers is
/// long enough; the calls answer the part of it that they filled, in ring order. Set-up touches the whole region; a reset, a
/// disconnect, and a register write that stores State write the four bytes of the peer's State Table entry; a load reads its
/// range, and a store writes it. No call touches another byte of it.
///
/// The methods that take the region as a slice are for one that no guest has mapped; those with `_at` in their name take a
/// [`Region`](crate::Region), which guests may change at any time.
///
/// Every method answers every argument: with a value, or with the [`Refusal`] that applies. A guest whose read is refused must
/// see all ones, and one whose write is refused nothing: [`trap`](crate::trap) does so.
///
/// Methods that take `&self` may run at the same time; one that takes `&mut self` runs while no other on the same hub does.
/// Methods on different hubs may run at once. A hub is `Send` and `Sync`, as its words are, so that Rust holds a host to this: it
/// may keep one in an `RwLock`, with the lock shared for reads and loads.
#[derive(PartialEq, Eq, Hash)]
pub struct Hub<'a> {
    words: &'a mut [u32],
}

impl<'a> Hub<'a> {
    /// Makes the words a hub with nobody connected, and the whole region zero.
    ///
    /// # Errors
    /// [`Refusal::BadSetting`]; [`Refusal::UnsoundHub`] where the words are not as many as the settings ask for;
    /// [`Refusal::BadRegion`]. The words are then all zero, and the region is unchanged.
    pub fn set_up(words: &'a mut [u32], settings: &Settings, region: &mut [u8]) -> Result<Hub<'a>, Refusal> {
        done(raw::set_up(words, region, settings))?;
        Ok(Hub { words })
    }

    /// Takes up a hub that was set up earlier, in these words or in those that they were copied from.
    ///
    /// Any words may be given: if they are not a sound hub, every call is refused with [`Refusal::UnsoundHub`].
    #[must_use]
    pub const fn from_words(words: &'a mut [u32]) -> Hub<'a> {
        Hub { words }
    }

    /// The hub's words, to be saved. What they mean is the library's own affair.
    #[must_use]
    pub const fn words(&self) -> &[u32] {
        self.words
    }

    pub(crate) const fn words_mut(&mut self) -> &mut [u32] {
        self.words
    }

    /// The same hub for a shorter time, for what takes one by value.
    #[must_use]
    pub const fn reborrow(&mut self) -> Hub<'_> {
        Hub { words: self.words }
    }

    /// Whether the words are a sound hub, that is whether no call but set-up, which overwrites them, refuses them with
    /// [`Refusal::UnsoundHub`].
    #[must_use]
    pub fn is_sound(&self) -> bool {
        raw::is_sound(self.words) == 1
    }

    /// Whether the peer is connected. The answer is for the host alone: no guest may learn it of another.
    ///
    /// # Errors
    /// [`Refusal::UnsoundHub`] or [`Refusal::NoSuchPeer`].
    pub fn is_connected(&self, peer: PeerId) -> Result<bool, Refusal> {
        raw::is_connected(self.words, id(peer)).result().map(|value| value == 1)
    }

    /// The peer joins with all registers at their reset values; nobody is rung.
    ///
    /// # Errors
    /// [`Refusal::UnsoundHub`], [`Refusal::NoSuchPeer`] or [`Refusal::Connected`].
    pub fn connect(&mut self, peer: PeerId) -> Result<(), Refusal> {
        done(raw::connect(self.words, id(peer)))
    }

    /// The peer leaves: its registers take their reset values, and its State Table entry is 0. If its State was not 0, vector
    /// 0 is then rung at every other peer.
    ///
    /// # Errors
    /// [`Refusal::UnsoundHub`], [`Refusal::BadRegion`], [`Refusal::ShortTable`], [`Refusal::NoSuchPeer`] or
    /// [`Refusal::NotConnected`].
    #[must_use = "the deliveries are interrupts to inject"]
    pub fn disconnect<'t>(
        &mut self,
        region: &mut [u8],
        table: &'t mut [Delivery],
        peer: PeerId,
    ) -> Result<&'t [Delivery], Refusal> {
        let counted = raw::disconnect(self.words, region, table, id(peer));
        filled(counted, table)
    }

    /// Resets a peer that stays connected: its registers take their reset values, and its State Table entry is 0. If its State
    /// was not 0, vector 0 is then rung at every other peer.
    ///
    /// # Errors
    /// As for [`disconnect`](Hub::disconnect).
    #[must_use = "the deliveries are interrupts to inject"]
    pub fn reset<'t>(
        &mut self,
        region: &mut [u8],
        table: &'t mut [Delivery],
        peer: PeerId,
    ) -> Result<&'t [Delivery], Refusal> {
        let counted = raw::reset(self.words, region, table, id(peer));
        filled(counted, table)
    }

    /// Reads 1, 2 or 4 bytes of the peer's configuration space. An accepted read gives what its reads of one byte give,
    /// little-endian, with no call between them that changes the hub.
    ///
    /// # Errors
    /// [`Refusal::UnsoundHub`], [`Refusal::NoSuchPeer`], [`Refusal::NotConnected`], [`Refusal::BadWidth`],
    /// [`Refusal::Misaligned`] or [`Refusal::OutOfRange`].
    pub fn configuration_read(&self, peer: PeerId, offset: u64, width: u64) -> Result<u32, Refusal> {
        raw::configuration_read(self.words, id(peer), offset, width).result()
    }

    /// Writes the low 1, 2 or 4 bytes of `value` to the peer's configuration space; bits that can't be written stay.
    /// An accepted write leaves what its writes of one byte leave, lowest first and with no other call between them.
    ///
    /// # Errors
    /// As for [`configuration_read`](Hub::configuration_read).
    pub fn configuration_write(&mut self, peer: PeerId, offset: u64, width: u64, value: u32) -> Result<(), Refusal> {
        done(raw::configuration_write(self.words, id(peer), offset, width, value))
    }

    /// Reads 4 bytes of the peer's register region (BAR 0); with Command bit 1 off all ones.
    ///
    /// # Errors
    /// As for [`configuration_read`](Hub::configuration_read).
    pub fn register_read(&self, peer: PeerId, offset: u64, width: u64) -> Result<u32, Refusal> {
        raw::register_read(self.words, id(peer), offset, width).result()
    }

    /// Writes 4 bytes of the peer's register region (BAR 0); with Command bit 1 off it does nothing. A store to Doorbell may
    /// deliver one interrupt, a store to State one to each other peer; a store of the value that State holds rings nobody.
    ///
    /// # Errors
    /// As for [`configuration_read`](Hub::configuration_read), and [`Refusal::BadRegion`] or [`Refusal::ShortTable`].
    #[must_use = "the deliveries are interrupts to inject"]
    pub fn register_write<'t>(
        &mut self,
        region: &mut [u8],
        table: &'t mut [Delivery],
        peer: PeerId,
        offset: u64,
        width: u64,
        value: u32,
    ) -> Result<&'t [Delivery], Refusal> {
        let counted = raw::register_write(self.words, region, table, id(peer), offset, width, value);
        filled(counted, table)
    }

    /// Reads 4 bytes of the peer's MSI-X region (BAR 1); with Command bit 1 off all ones.
    ///
    /// # Errors
    /// As for [`configuration_read`](Hub::configuration_read).
    pub fn msix_read(&self, peer: PeerId, offset: u64, width: u64) -> Result<u32, Refusal> {
        raw::msix_read(self.words, id(peer), offset, width).result()
    }

    /// Writes 4 bytes of the peer's MSI-X region (BAR 1); with Command bit 1 off it does nothing.
    ///
    /// # Errors
    /// As for [`configuration_read`](Hub::configuration_read).
    pub fn msix_write(&mut self, peer: PeerId, offset: u64, width: u64, value: u32) -> Result<(), Refusal> {
        done(raw::msix_write(self.words, id(peer), offset, width, value))
    }

    /// Which section a shared range lies in, and whether the peer may store to it.
    ///
    /// # Errors
    /// [`Refusal::UnsoundHub`], [`Refusal::NoSuchPeer`], [`Refusal::NotConnected`], [`Refusal::BadWidth`] for a length of 0,
    /// or [`Refusal::OutOfRange`].
    pub fn section_question(&self, peer: PeerId, offset: u64, length: u64) -> Result<Placement, Refusal> {
        raw::section_question(self.words, id(peer), offset, length).result()
    }

    /// Fills the buffer with the shared bytes at `offset`.
    ///
    /// # Errors
    /// As for [`section_question`](Hub::section_question), and [`Refusal::BadRegion`]; the buffer is then unchanged.
    pub fn load(&self, region: &[u8], peer: PeerId, offset: u64, buffer: &mut [u8]) -> Result<(), Refusal> {
        done(raw::load(self.words, region, id(peer), offset, buffer))
    }

    /// Stores the bytes at `offset` of the region.
    ///
    /// # Errors
    /// As for [`load`](Hub::load), and [`Refusal::ReadOnly`]; the region is then unchanged.
    pub fn store(&self, region: &mut [u8], peer: PeerId, offset: u64, bytes: &[u8]) -> Result<(), Refusal> {
        done(raw::store(self.words, region, id(peer), offset, bytes))
    }
}

// Hundreds of numbers tell a reader nothing.
impl fmt::Debug for Hub<'_> {
    fn fmt(&self, f: &mut fmt::Formatter<'_>) -> fmt::Result {
        f.debug_struct("Hub").finish_non_exhaustive()
    }
}

pub(crate) fn id(peer: PeerId) -> u64 {
    u64::from(peer.0)
}

pub(crate) fn done(reply: Reply) -> Result<(), Refusal> {
    reply.result().map(|_| ())
}

// The library never counts more records than it was lent; `get` only spares a panic that can't happen.
pub(crate) fn filled(counted: Counted, table: &[Delivery]) -> Result<&[Delivery], Refusal> {
    counted.reply.result()?;
    Ok(table.get(..counted.count).unwrap_or(table))
}
