//! A hub whose calls are written to a log.

use std::fmt;
use std::io::Write;

use ivshmem::{Delivery, Hub, PeerId, Placement, Refusal, Region, Settings};

use crate::log::{Log, Why};
use crate::player::LONGEST_REGION;
use crate::record::Record;
use crate::text::{Space, load_text, placement_text, question_text, read_text, refused_text, store_text, write_text};

/// Why a set-up through a recorder has made no hub.
#[derive(Clone, Copy, Debug, PartialEq, Eq, Hash)]
pub enum SetUpError {
    /// The hub refuses it. The words are then all zero.
    Refused(Refusal),
    /// The recorder refuses it: the sections have more than [`LONGEST_REGION`] bytes in all. A player would refuse what the hub
    /// may take, and nothing after it would mean the same. No call was made, and nothing has changed.
    TooLarge,
}

impl fmt::Display for SetUpError {
    fn fmt(&self, f: &mut fmt::Formatter<'_>) -> fmt::Result {
        match self {
            SetUpError::Refused(refusal) => refusal.fmt(f),
            SetUpError::TooLarge => {
                write!(f, "the sections have more than {LONGEST_REGION} bytes, and no log takes more")
            }
        }
    }
}

impl std::error::Error for SetUpError {}

/// A [`Hub`] whose calls are written to a [`Log`]: the same methods, with the same answers.
///
/// ```
/// use ivshmem::{PeerId, Refusal, Settings, hub_words};
/// use ivshmem_log::{Log, Player, Recorder, SetUpError};
///
/// # fn main() -> Result<(), SetUpError> {
/// let settings = Settings { peers: 2, vectors: 1, ..Settings::default() };
/// let (mut words, mut region) = ([0; hub_words(2, 1)], [0; 4096]);
/// let mut log = Log::new(Vec::new());
/// let mut hub = Recorder::set_up(&mut words, &settings, &mut region, &mut log)?;
/// assert_eq!(hub.connect(PeerId(0)), Ok(()));
///
/// // A host that keeps the words beside other things makes a recorder over them for each call.
/// let again = Recorder::from_words(&mut words, &mut log).connect(PeerId(0));
/// assert_eq!(again, Err(Refusal::Connected));
///
/// assert!(log.is_complete());
/// let mut written = Vec::new();
/// Player::default().play(&log.into_writer(), &mut written);
/// assert_eq!(written, [0x81, 0x81, 0x80, 5]);
/// # Ok(())
/// # }
/// ```
///
/// Every record of the log plays back to the answer that its call gave. A load or store of n bytes stands there, where it was
/// taken, as n records of one byte each, which have the same effect. What a log can't hold is noted ([`Log::notes`]); a set-up
/// that it can't hold is refused.
///
/// A log is for one hub at a time, whose words and region only its recorders change. What guests store through a mapping goes
/// past hub and recorder: no log has it, and a load of such bytes plays back with others.
pub struct Recorder<'a, W> {
    hub: Hub<'a>,
    log: &'a mut Log<W>,
}

// As for the hub, and a writer need not be printable.
impl<W> fmt::Debug for Recorder<'_, W> {
    fn fmt(&self, f: &mut fmt::Formatter<'_>) -> fmt::Result {
        f.debug_struct("Recorder").finish_non_exhaustive()
    }
}

impl<'a, W: Write> Recorder<'a, W> {
    /// As [`Hub::set_up`]. Where the log has a hub already, it has this one from here on.
    ///
    /// # Errors
    /// [`SetUpError::TooLarge`], or the hub's refusal.
    pub fn set_up(
        words: &'a mut [u32],
        settings: &Settings,
        region: &mut [u8],
        log: &'a mut Log<W>,
    ) -> Result<Recorder<'a, W>, SetUpError> {
        Recorder::set_up_at(words, settings, &mut Region::from_slice(region), log)
    }

    /// As [`Hub::set_up_at`]; else as [`set_up`](Recorder::set_up).
    ///
    /// # Errors
    /// [`SetUpError::TooLarge`], or the hub's refusal.
    pub fn set_up_at(
        words: &'a mut [u32],
        settings: &Settings,
        region: &mut Region<'_>,
        log: &'a mut Log<W>,
    ) -> Result<Recorder<'a, W>, SetUpError> {
        if settings.total().is_some_and(|total| total > LONGEST_REGION) {
            return Err(SetUpError::TooLarge);
        }
        let hub = Hub::set_up_at(words, settings, region);
        log.set_up(settings, hub.as_ref().map(|_| ()).map_err(|refusal| *refusal));
        Ok(Recorder { hub: hub.map_err(SetUpError::Refused)?, log })
    }

    /// As [`Hub::from_words`], for the hub that was set up with this log. Calls on another are answered too, and noted.
    #[must_use]
    pub const fn from_words(words: &'a mut [u32], log: &'a mut Log<W>) -> Recorder<'a, W> {
        Recorder { hub: Hub::from_words(words), log }
    }

    /// As [`Hub::words`].
    #[must_use]
    pub const fn words(&self) -> &[u32] {
        self.hub.words()
    }

    /// As [`Hub::is_sound`]. A question of the host changes nothing and is no part of a history, so it is not noted.
    #[must_use]
    pub fn is_sound(&self) -> bool {
        self.hub.is_sound()
    }

    /// As [`Hub::is_connected`]. It is not noted either.
    ///
    /// # Errors
    /// The hub's refusal.
    pub fn is_connected(&self, peer: PeerId) -> Result<bool, Refusal> {
        self.hub.is_connected(peer)
    }

    /// The log so far.
    #[must_use]
    pub const fn log(&self) -> &Log<W> {
        self.log
    }

    /// As [`Hub::connect`].
    ///
    /// # Errors
    /// The hub's refusal, here and in all other methods.
    pub fn connect(&mut self, peer: PeerId) -> Result<(), Refusal> {
        let answer = self.hub.connect(peer);
        let record = Record::Connect { peer };
        self.log.call(Some([record]), || record.to_string(), answer);
        answer
    }

    /// As [`Hub::disconnect`].
    ///
    /// # Errors
    /// The hub's refusal.
    #[must_use = "the deliveries are interrupts to inject"]
    pub fn disconnect<'t>(
        &mut self,
        region: &mut [u8],
        table: &'t mut [Delivery],
        peer: PeerId,
    ) -> Result<&'t [Delivery], Refusal> {
        self.disconnect_at(&mut Region::from_slice(region), table, peer)
    }

    /// As [`Hub::disconnect_at`].
    ///
    /// # Errors
    /// The hub's refusal.
    #[must_use = "the deliveries are interrupts to inject"]
    pub fn disconnect_at<'t>(
        &mut self,
        region: &mut Region<'_>,
        table: &'t mut [Delivery],
        peer: PeerId,
    ) -> Result<&'t [Delivery], Refusal> {
        let answer = self.hub.disconnect_at(region, table, peer);
        let record = Record::Disconnect { peer };
        self.log.call(Some([record]), || record.to_string(), answer);
        answer
    }

    /// As [`Hub::reset`].
    ///
    /// # Errors
    /// The hub's refusal.
    #[must_use = "the deliveries are interrupts to inject"]
    pub fn reset<'t>(
        &mut self,
        region: &mut [u8],
        table: &'t mut [Delivery],
        peer: PeerId,
    ) -> Result<&'t [Delivery], Refusal> {
        self.reset_at(&mut Region::from_slice(region), table, peer)
    }

    /// As [`Hub::reset_at`].
    ///
    /// # Errors
    /// The hub's refusal.
    #[must_use = "the deliveries are interrupts to inject"]
    pub fn reset_at<'t>(
        &mut self,
        region: &mut Region<'_>,
        table: &'t mut [Delivery],
        peer: PeerId,
    ) -> Result<&'t [Delivery], Refusal> {
        let answer = self.hub.reset_at(region, table, peer);
        let record = Record::Reset { peer };
        self.log.call(Some([record]), || record.to_string(), answer);
        answer
    }

    /// As [`Hub::configuration_read`].
    ///
    /// # Errors
    /// The hub's refusal.
    pub fn configuration_read(&mut self, peer: PeerId, offset: u64, width: u64) -> Result<u32, Refusal> {
        let answer = self.hub.configuration_read(peer, offset, width);
        let record = narrow(offset, width).map(|(offset, width)| [Record::ConfigurationRead { peer, offset, width }]);
        self.log.call(record, || read_text(peer, Space::Configuration, offset, width), answer);
        answer
    }

    /// As [`Hub::configuration_write`].
    ///
    /// # Errors
    /// The hub's refusal.
    pub fn configuration_write(&mut self, peer: PeerId, offset: u64, width: u64, value: u32) -> Result<(), Refusal> {
        let answer = self.hub.configuration_write(peer, offset, width, value);
        let record =
            narrow(offset, width).map(|(offset, width)| [Record::ConfigurationWrite { peer, offset, width, value }]);
        self.log.call(record, || write_text(peer, Space::Configuration, offset, width, value), answer);
        answer
    }

    /// As [`Hub::register_read`].
    ///
    /// # Errors
    /// The hub's refusal.
    pub fn register_read(&mut self, peer: PeerId, offset: u64, width: u64) -> Result<u32, Refusal> {
        let answer = self.hub.register_read(peer, offset, width);
        let record = four_bytes(offset, width).map(|offset| [Record::RegisterRead { peer, offset }]);
        self.log.call(record, || read_text(peer, Space::Register, offset, width), answer);
        answer
    }

    /// As [`Hub::register_write`].
    ///
    /// # Errors
    /// The hub's refusal.
    #[must_use = "the deliveries are interrupts to inject"]
    pub fn register_write<'t>(
        &mut self,
        region: &mut [u8],
        table: &'t mut [Delivery],
        peer: PeerId,
        offset: u64,
        width: u64,
        value: u32,
    ) -> Result<&'t [Delivery], Refusal> {
        self.register_write_at(&mut Region::from_slice(region), table, peer, offset, width, value)
    }

    /// As [`Hub::register_write_at`].
    ///
    /// # Errors
    /// The hub's refusal.
    #[must_use = "the deliveries are interrupts to inject"]
    pub fn register_write_at<'t>(
        &mut self,
        region: &mut Region<'_>,
        table: &'t mut [Delivery],
        peer: PeerId,
        offset: u64,
        width: u64,
        value: u32,
    ) -> Result<&'t [Delivery], Refusal> {
        let answer = self.hub.register_write_at(region, table, peer, offset, width, value);
        let record = four_bytes(offset, width).map(|offset| [Record::RegisterWrite { peer, offset, value }]);
        self.log.call(record, || write_text(peer, Space::Register, offset, width, value), answer);
        answer
    }

    /// As [`Hub::msix_read`].
    ///
    /// # Errors
    /// The hub's refusal.
    pub fn msix_read(&mut self, peer: PeerId, offset: u64, width: u64) -> Result<u32, Refusal> {
        let answer = self.hub.msix_read(peer, offset, width);
        let record = four_bytes(offset, width).map(|offset| [Record::MsixRead { peer, offset }]);
        self.log.call(record, || read_text(peer, Space::Msix, offset, width), answer);
        answer
    }

    /// As [`Hub::msix_write`].
    ///
    /// # Errors
    /// The hub's refusal.
    pub fn msix_write(&mut self, peer: PeerId, offset: u64, width: u64, value: u32) -> Result<(), Refusal> {
        let answer = self.hub.msix_write(peer, offset, width, value);
        let record = four_bytes(offset, width).map(|offset| [Record::MsixWrite { peer, offset, value }]);
        self.log.call(record, || write_text(peer, Space::Msix, offset, width, value), answer);
        answer
    }

    /// As [`Hub::section_question`]. A log has no record for it, so it is noted.
    ///
    /// # Errors
    /// The hub's refusal.
    pub fn section_question(&mut self, peer: PeerId, offset: u64, length: u64) -> Result<Placement, Refusal> {
        let answer = self.hub.section_question(peer, offset, length);
        let text = || answer.as_ref().map_or_else(|refusal| refused_text(*refusal), placement_text);
        self.log.note(Why::NoRecord, || question_text(peer, offset, length), text);
        answer
    }

    /// As [`Hub::load`].
    ///
    /// # Errors
    /// The hub's refusal.
    pub fn load(&mut self, region: &[u8], peer: PeerId, offset: u64, buffer: &mut [u8]) -> Result<(), Refusal> {
        let answer = self.hub.load(region, peer, offset, buffer);
        self.loaded(peer, offset, buffer, answer)
    }

    /// As [`Hub::load_at`].
    ///
    /// # Errors
    /// The hub's refusal.
    pub fn load_at(
        &mut self,
        region: &Region<'_>,
        peer: PeerId,
        offset: u64,
        buffer: &mut [u8],
    ) -> Result<(), Refusal> {
        let answer = self.hub.load_at(region, peer, offset, buffer);
        self.loaded(peer, offset, buffer, answer)
    }

    fn loaded(&mut self, peer: PeerId, offset: u64, buffer: &[u8], answer: Result<(), Refusal>) -> Result<(), Refusal> {
        let records = range(offset, buffer.len(), answer)
            .map(|offset| (0..).zip(buffer).map(move |(at, _)| Record::Load { peer, offset: offset + at }));
        self.log.call(records, || load_text(peer, offset, buffer.len()), answer);
        answer
    }

    /// As [`Hub::store`].
    ///
    /// # Errors
    /// The hub's refusal.
    pub fn store(&mut self, region: &mut [u8], peer: PeerId, offset: u64, bytes: &[u8]) -> Result<(), Refusal> {
        self.store_at(&mut Region::from_slice(region), peer, offset, bytes)
    }

    /// As [`Hub::store_at`].
    ///
    /// # Errors
    /// The hub's refusal.
    pub fn store_at(
        &mut self,
        region: &mut Region<'_>,
        peer: PeerId,
        offset: u64,
        bytes: &[u8],
    ) -> Result<(), Refusal> {
        let answer = self.hub.store_at(region, peer, offset, bytes);
        let records = range(offset, bytes.len(), answer)
            .map(|offset| (0..).zip(bytes).map(move |(at, &byte)| Record::Store { peer, offset: offset + at, byte }));
        self.log.call(records, || store_text(peer, offset, bytes), answer);
        answer
    }
}

/// An access to configuration space in the widths that a log has for it. One beyond them is refused.
fn narrow(offset: u64, width: u64) -> Option<(u16, u8)> {
    Some((offset.try_into().ok()?, width.try_into().ok()?))
}

/// The offset of an access to registers or the MSI-X region as a log has it: of 4 bytes only. Any other is refused.
fn four_bytes(offset: u64, width: u64) -> Option<u16> {
    offset.try_into().ok().filter(|_| width == 4)
}

/// The first byte of a shared range that a log can hold byte by byte. A refused one it can't, since its bytes may be taken one
/// by one; but one byte is itself.
fn range(offset: u64, length: usize, answer: Result<(), Refusal>) -> Option<u32> {
    offset.try_into().ok().filter(|_| length == 1 || answer.is_ok())
}
