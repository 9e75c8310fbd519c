//! What is compared: the library and the model behind one trait, both working on plain lent memory.

use std::fmt;

use ivshmem::raw::{self, Counted, Reply};
use ivshmem::{Delivery, Section, register};

use crate::call::Call;
use crate::hub::{Hub, MAX_PEERS, MAX_VECTORS, MIN_BASE, Numbers, Refused, Ring};
use crate::layout::{decode, decode_numbers, encode, hub_words};

/// Everything that a call answers; what its kind has not stays 0.
#[derive(Clone, Copy, Debug, Default, PartialEq, Eq)]
pub struct Answer {
    pub number: u32,
    pub value: u32,
    pub count: usize,
    pub kind: u32,
    pub owner: u32,
    pub store: u32,
}

impl fmt::Display for Answer {
    fn fmt(&self, f: &mut fmt::Formatter<'_>) -> fmt::Result {
        write!(f, "number {}, value {:#x}", self.number, self.value)?;
        write!(f, ", {} delivered, section {} of {}, store {}", self.count, self.kind, self.owner, self.store)
    }
}

/// The memory lent to a call. A store's bytes stand in the buffer.
pub struct Lent<'a> {
    pub words: &'a mut [u32],
    pub region: &'a mut [u8],
    pub table: &'a mut [Delivery],
    pub buffer: &'a mut [u8],
}

/// The answers to the host's questions about words: whether they are a sound hub, and whether a peer of it is connected.
#[derive(Clone, Copy, Debug, PartialEq, Eq)]
pub struct Asked {
    pub sound: u32,
    pub connected: Answer,
}

/// Something that answers calls.
pub trait Subject {
    /// Makes the call on the lent memory.
    fn perform(&mut self, call: &Call, lent: Lent<'_>) -> Answer;

    /// Answers the host's questions; not every subject does.
    fn ask(&mut self, _words: &[u32], _id: u64) -> Option<Asked> {
        None
    }
}

impl From<Reply> for Answer {
    fn from(reply: Reply) -> Answer {
        Answer { number: reply.number, value: reply.value, ..Answer::default() }
    }
}

impl From<Counted> for Answer {
    fn from(counted: Counted) -> Answer {
        Answer { count: counted.count, ..counted.reply.into() }
    }
}

/// The linked library.
pub struct Library;

impl Subject for Library {
    fn perform(&mut self, call: &Call, lent: Lent<'_>) -> Answer {
        let Lent { words, region, table, buffer } = lent;
        match *call {
            Call::SetUp(settings) => raw::set_up(words, region, &settings).into(),
            Call::Connect { id } => raw::connect(words, id).into(),
            Call::Disconnect { id } => raw::disconnect(words, region, table, id).into(),
            Call::Reset { id } => raw::reset(words, region, table, id).into(),
            Call::ConfigurationRead { id, offset, width } => raw::configuration_read(words, id, offset, width).into(),
            Call::ConfigurationWrite { id, offset, width, value } => {
                raw::configuration_write(words, id, offset, width, value).into()
            }
            Call::RegisterRead { id, offset, width } => raw::register_read(words, id, offset, width).into(),
            Call::RegisterWrite { id, offset, width, value } => {
                raw::register_write(words, region, table, id, offset, width, value).into()
            }
            Call::MsixRead { id, offset, width } => raw::msix_read(words, id, offset, width).into(),
            Call::MsixWrite { id, offset, width, value } => raw::msix_write(words, id, offset, width, value).into(),
            Call::Section { id, offset, length } => {
                let answer = raw::section_question(words, id, offset, length);
                Answer { kind: answer.kind, owner: answer.owner, store: answer.store, ..answer.reply.into() }
            }
            Call::Load { id, offset, .. } => raw::load(words, region, id, offset, buffer).into(),
            Call::Store { id, offset, .. } => raw::store(words, region, id, offset, buffer).into(),
        }
    }

    fn ask(&mut self, words: &[u32], id: u64) -> Option<Asked> {
        Some(Asked { sound: raw::is_sound(words), connected: raw::is_connected(words, id).into() })
    }
}

/// The model. It also keeps what happened in the last call, to be counted.
pub struct Model {
    /// What became of its rings, in order.
    pub rings: Vec<Ring>,
    /// The refusals that applied beside the one given.
    pub also: Vec<u32>,
    /// The set-up numbers of the hub that the call left, and the records that were lent.
    pub numbers: Numbers,
    pub records: usize,
    /// The words that were lent.
    pub handed: Handed,
    /// In an accepted State store, reset or disconnect, what it met.
    pub met: Option<Met>,
}

impl Default for Model {
    fn default() -> Model {
        let (rings, also) = (Vec::new(), Vec::new());
        Model { rings, also, numbers: Numbers::ZERO, records: 0, handed: Handed::default(), met: None }
    }
}

/// What a call that stores State meets: the value, what the register and the State Table entry hold before, and whether a
/// ring at the others would be delivered to one of them.
#[derive(Clone, Copy)]
pub struct Met {
    pub value: u32,
    pub register: u32,
    pub entry: u32,
    pub receivers: bool,
}

impl Met {
    /// Nothing where the call does not get as far as that.
    #[must_use]
    pub fn of(hub: &Hub, call: &Call, region: &[u8]) -> Option<Met> {
        let (id, value) = match *call {
            Call::RegisterWrite { id, offset: register::STATE, value, .. } => (id, value),
            Call::Reset { id } | Call::Disconnect { id } => (id, 0),
            _ => return None,
        };
        let peer = hub.peers.get(id as usize)?;
        let hidden = matches!(call, Call::RegisterWrite { .. }) && peer.command & 1 << 1 == 0;
        let entry = *region.get(4 * id as usize..)?.first_chunk()?;
        let receivers = (0..hub.numbers.peers).any(|other| other != id && hub.blocks(other, 0).is_empty());
        let entry = u32::from_le_bytes(entry);
        (peer.connected == 1 && !hidden).then_some(Met { value, register: peer.state, entry, receivers })
    }

    /// Whether State changes.
    #[must_use]
    pub fn changes(&self) -> bool {
        self.value != self.register
    }
}

/// Words that a call is lent.
#[derive(Clone, Copy, Default)]
pub struct Handed {
    /// How many they are.
    pub words: usize,
    /// How many they should be, by their first two or, in a set-up, by its numbers.
    pub asked: u128,
    /// In a set-up, whether they are not all zero, and whether they are a sound hub; of another call its number says it.
    pub in_use: bool,
    pub sound: bool,
    /// Whether those that are asked for, in front of more, are a sound hub.
    pub sound_in_front: bool,
    /// Whether they would be a sound hub with another word 0, and with another word 1; and what stands there.
    pub but_for: [Option<u32>; 2],
    /// The base below the lowest, where the words would be a sound hub with the lowest.
    pub low_base: Option<u64>,
}

impl Handed {
    fn of(words: &[u32], call: &Call) -> Handed {
        if let Call::SetUp(settings) = call {
            return Handed {
                words: words.len(),
                asked: hub_words(&settings.into()),
                in_use: words.iter().any(|&word| word != 0),
                sound: decode(words).is_some_and(|hub| hub.sound()),
                ..Handed::default()
            };
        }
        let asked = hub_words(&decode_numbers(words));
        let handed = Handed { words: words.len(), asked, low_base: sound_but_for_base(words), ..Handed::default() };
        if words.len() as u128 == asked {
            return handed;
        }
        let front = usize::try_from(asked).ok().and_then(|asked| words.get(..asked));
        Handed {
            sound_in_front: front.and_then(decode).is_some_and(|hub| hub.sound()),
            but_for: [0, 1].map(|place| sound_but_for(words, place)),
            ..handed
        }
    }
}

/// What stands in word 0 or word 1, where another number there would make the words a sound hub.
fn sound_but_for(words: &[u32], place: usize) -> Option<u32> {
    let found = *words.get(place)?;
    let most = [MAX_PEERS, MAX_VECTORS][place] as u32;
    let mut mended = words.to_vec();
    (1..=most)
        .any(|number| {
            mended[place] = number;
            decode(&mended).is_some_and(|hub| hub.sound())
        })
        .then_some(found)
}

/// The base, where it is too low and nothing else is wrong.
fn sound_but_for_base(words: &[u32]) -> Option<u64> {
    let found = decode_numbers(words).base;
    if found >= MIN_BASE {
        return None;
    }
    let hub = decode(words)?;
    Hub { numbers: Numbers { base: MIN_BASE, ..hub.numbers }, ..hub }.sound().then_some(found)
}

impl Subject for Model {
    fn perform(&mut self, call: &Call, lent: Lent<'_>) -> Answer {
        let handed = Handed::of(lent.words, call);
        let fit = handed.words as u128 == handed.asked;
        *self = Model { records: lent.table.len(), handed, ..Model::default() };
        let mut hub = match call {
            Call::SetUp(_) => Hub::NONE,
            _ if fit => decode(lent.words).expect("as many words as they ask for"),
            // Words of another number are no hub, whatever they hold.
            _ => return self.refused(Refused(vec![10])),
        };
        let Lent { words, region, table, buffer } = lent;
        let met = Met::of(&hub, call, region);
        let outcome = self.step(&mut hub, call, fit, region, table.len(), buffer);
        self.numbers = hub.numbers;
        match outcome {
            Err(refused) => {
                if let Call::SetUp(_) = call {
                    // R18: all words that it is lent, "however many they are".
                    words.fill(0);
                }
                self.refused(refused)
            }
            Ok(mut answer) => {
                words.copy_from_slice(&encode(&hub));
                self.met = met;
                answer.count = hand_out(&self.rings, table);
                answer
            }
        }
    }

    fn ask(&mut self, words: &[u32], id: u64) -> Option<Asked> {
        let connected = match decode(words).map_or(Err(Refused(vec![10])), |hub| hub.is_connected(id)) {
            Ok(value) => Answer { value, ..Answer::default() },
            Err(refused) => Answer { number: refused.number(), ..Answer::default() },
        };
        // Sound is what is not refused with 10.
        Some(Asked { sound: (connected.number != 10).into(), connected })
    }
}

impl Model {
    fn step(
        &mut self,
        hub: &mut Hub,
        call: &Call,
        words_fit: bool,
        region: &mut [u8],
        records: usize,
        buffer: &mut [u8],
    ) -> Result<Answer, Refused> {
        let done = |()| Answer::default();
        let read = |value: u32| Answer { value, ..Answer::default() };
        match *call {
            Call::SetUp(settings) => Hub::set_up(Numbers::from(&settings), words_fit, region).map(|fresh| {
                *hub = fresh;
                Answer::default()
            }),
            Call::Connect { id } => hub.connect(id).map(done),
            Call::Disconnect { id } => hub.disconnect(region, records, id).map(|rings| self.keep(rings)),
            Call::Reset { id } => hub.reset(region, records, id).map(|rings| self.keep(rings)),
            Call::ConfigurationRead { id, offset, width } => hub.configuration_read(id, offset, width).map(read),
            Call::ConfigurationWrite { id, offset, width, value } => {
                hub.configuration_write(id, offset, width, value).map(done)
            }
            Call::RegisterRead { id, offset, width } => hub.register_read(id, offset, width).map(read),
            Call::RegisterWrite { id, offset, width, value } => {
                hub.register_write(region, records, id, (offset, width), value).map(|rings| self.keep(rings))
            }
            Call::MsixRead { id, offset, width } => hub.msix_read(id, offset, width).map(read),
            Call::MsixWrite { id, offset, width, value } => hub.msix_write(id, offset, width, value).map(done),
            Call::Section { id, offset, length } => hub.section(id, offset, length).map(|placement| {
                let (kind, owner) = section_numbers(placement.section);
                Answer { kind, owner, store: placement.store.into(), ..Answer::default() }
            }),
            Call::Load { id, offset, .. } => hub.load(region, id, offset, buffer).map(done),
            Call::Store { id, offset, .. } => hub.store(region, id, offset, buffer).map(done),
        }
    }

    fn keep(&mut self, rings: Vec<Ring>) -> Answer {
        self.rings = rings;
        Answer::default()
    }

    /// A refused call "answers its number and value 0" (R31), and of a section question no section and no right to store.
    fn refused(&mut self, refused: Refused) -> Answer {
        let number = refused.number();
        self.also = refused.0;
        self.also.remove(0);
        Answer { number, ..Answer::default() }
    }
}

/// The deliveries are written "from the front, later records stay as they were" (R60); answers the count.
fn hand_out(rings: &[Ring], table: &mut [Delivery]) -> usize {
    let delivered = rings.iter().filter_map(|ring| match ring {
        Ring::Delivered(delivery, _) => Some(*delivery),
        Ring::Lost(_) => None,
    });
    table.iter_mut().zip(delivered).map(|(record, delivery)| *record = delivery).count()
}

/// The header's numbers for a section: its kind and its owner.
fn section_numbers(section: Section) -> (u32, u32) {
    match section {
        Section::StateTable => (1, 0),
        Section::ReadWrite => (2, 0),
        Section::Output(owner) => (3, owner.0.into()),
        _ => unreachable!("the rules have no other section"),
    }
}
