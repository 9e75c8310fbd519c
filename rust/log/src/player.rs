//! Plays a log on the linked library.

use ivshmem::{Delivery, Hub, MAX_PEERS, Refusal, Settings};

use crate::answer::Answer;
use crate::cutter::{Cutter, Fault};
use crate::record::{Record, SetUp};

/// The largest total of a set-up that a log can hold: a player has no more memory for the region.
pub const LONGEST_REGION: usize = 32768;

/// A record that was played.
#[derive(Clone, Debug, PartialEq, Eq)]
pub struct Played {
    /// Where in the log it begins.
    pub place: u64,
    /// The record.
    pub record: Record,
    /// Its answer.
    pub answer: Answer,
}

/// Plays a log, given in any pieces, and answers as the proved player program does. Its memory is bounded: one hub, one region,
/// one delivery table and one record.
///
/// ```
/// use ivshmem_log::{Player, Record};
///
/// let mut log = Vec::new();
/// Record::Connect { peer: ivshmem::PeerId(0) }.encode(&mut log);
///
/// let mut player = Player::default();
/// let mut written = Vec::new();
/// for byte in log {
///     player.play(&[byte], &mut written);
/// }
/// player.end(&mut written);
/// // There is no hub yet.
/// assert_eq!(written, [0x80, 10]);
/// ```
#[derive(Default)]
pub struct Player {
    cutter: Cutter,
    memory: Memory,
}

impl Player {
    /// Takes the next piece of the log and hands over each record that ends in it, with its answer.
    ///
    /// # Errors
    /// [`Fault::UnknownKind`], once; what follows it is not played.
    pub fn feed(&mut self, mut piece: &[u8], mut each: impl FnMut(Played)) -> Result<(), Fault> {
        while let Some(next) = self.cutter.next(&mut piece) {
            let placed = next?;
            let answer = self.memory.answer(&placed.record);
            each(Played { place: placed.place, record: placed.record, answer });
        }
        Ok(())
    }

    /// The log ends here.
    ///
    /// # Errors
    /// [`Fault::EndsInside`], where it ends inside a record.
    pub fn finish(&self) -> Result<(), Fault> {
        self.cutter.end()
    }

    /// Takes the next piece of the log, and puts what the program writes for it at the end of what is written.
    pub fn play(&mut self, piece: &[u8], written: &mut Vec<u8>) {
        let stop = self.feed(piece, |played| played.answer.encode(written));
        written.extend(stop.err().map(|fault| fault.code()));
    }

    /// Puts what the program writes at the end of its input at the end of what is written.
    pub fn end(&self, written: &mut Vec<u8>) {
        written.extend(self.finish().err().map(|fault| fault.code()));
    }
}

/// What a player lends: the hub's words, just as many as the set-up asks for, a region of just its total, and a table with
/// room for all peers.
struct Memory {
    words: Vec<u32>,
    region: Vec<u8>,
    table: [Delivery; MAX_PEERS],
}

/// No words are no sound hub, as little as words that are all zero.
impl Default for Memory {
    fn default() -> Memory {
        Memory { words: Vec::new(), region: Vec::new(), table: [Delivery::default(); MAX_PEERS] }
    }
}

impl Memory {
    fn answer(&mut self, record: &Record) -> Answer {
        let Memory { words, region, table } = self;
        let mut hub = Hub::from_words(words);
        match *record {
            Record::SetUp(ref numbers) => set_up(words, region, numbers).into(),
            Record::Connect { peer } => hub.connect(peer).into(),
            Record::Disconnect { peer } => hub.disconnect(region, table, peer).into(),
            Record::Reset { peer } => hub.reset(region, table, peer).into(),
            Record::ConfigurationRead { peer, offset, width } => {
                hub.configuration_read(peer, offset.into(), width.into()).into()
            }
            Record::ConfigurationWrite { peer, offset, width, value } => {
                hub.configuration_write(peer, offset.into(), width.into(), value).into()
            }
            Record::RegisterRead { peer, offset } => hub.register_read(peer, offset.into(), 4).into(),
            Record::RegisterWrite { peer, offset, value } => {
                hub.register_write(region, table, peer, offset.into(), 4, value).into()
            }
            Record::MsixRead { peer, offset } => hub.msix_read(peer, offset.into(), 4).into(),
            Record::MsixWrite { peer, offset, value } => hub.msix_write(peer, offset.into(), 4, value).into(),
            Record::Load { peer, offset } => {
                let mut byte = [0];
                hub.load(region, peer, offset.into(), &mut byte).map(|()| u32::from(byte[0])).into()
            }
            Record::Store { peer, offset, byte } => hub.store(region, peer, offset.into(), &[byte]).into(),
        }
    }
}

/// A set-up starts afresh, and a refused one leaves no hub.
fn set_up(words: &mut Vec<u32>, region: &mut Vec<u8>, numbers: &SetUp) -> Result<(), Refusal> {
    let settings = Settings::from(*numbers);
    words.clear();
    let total = settings.total().filter(|&total| total <= LONGEST_REGION).ok_or(Refusal::BadSetting)?;
    words.resize(settings.hub_words().ok_or(Refusal::BadSetting)?, 0);
    region.resize(total, 0);
    Hub::set_up(words, &settings, region).map(|_| ())
}
