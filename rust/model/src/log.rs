//! A log of calls (C-13, R76 to R80) as the rules describe it, and a player that answers it by the model. Nothing here is
//! shared with the crate that writes and reads logs.

use ivshmem::Delivery;

use crate::call::Call;
use crate::hub::{Hub, MAX_PEERS, Numbers, Refused, Ring};

/// The "body whose length the kind gives" (R76), kind by kind.
pub const BODIES: [usize; 12] = [38, 2, 2, 2, 5, 9, 4, 8, 4, 8, 6, 7];
/// The largest T that a log's set-up may have (R78).
pub const LARGEST_TOTAL: u128 = 32768;
/// What is written where the log ends inside a record, and for an unknown kind (R77).
pub const ENDS_INSIDE: u8 = 0x84;
/// See [`ENDS_INSIDE`].
pub const UNKNOWN_KIND: u8 = 0x85;

/// A call as a record (R76), every number cut to its field; nothing for a section question, which a log has no record for. Of a
/// load or a store it has the first byte.
#[must_use]
pub fn record(call: &Call) -> Option<Vec<u8>> {
    let fields = |kind: u8, fields: &[(u64, usize)]| {
        let bytes = fields.iter().flat_map(|(number, width)| number.to_le_bytes().into_iter().take(*width));
        Some([kind].into_iter().chain(bytes).collect())
    };
    match *call {
        Call::SetUp(s) => {
            let numbers =
                [(s.peers, 2), (s.vectors, 2), (s.state_table, 4), (s.read_write, 8), (s.output, 8), (s.base, 8)];
            let others = [s.protocol, s.subsystem_vendor, s.subsystem_id].map(|number| (number.into(), 2));
            fields(0x00, &[&numbers[..], &others].concat())
        }
        Call::Connect { id } => fields(0x01, &[(id, 2)]),
        Call::Disconnect { id } => fields(0x02, &[(id, 2)]),
        Call::Reset { id } => fields(0x03, &[(id, 2)]),
        Call::ConfigurationRead { id, offset, width } => fields(0x04, &[(id, 2), (offset, 2), (width, 1)]),
        Call::ConfigurationWrite { id, offset, width, value } => {
            fields(0x05, &[(id, 2), (offset, 2), (width, 1), (value.into(), 4)])
        }
        Call::RegisterRead { id, offset, .. } => fields(0x06, &[(id, 2), (offset, 2)]),
        Call::RegisterWrite { id, offset, value, .. } => fields(0x07, &[(id, 2), (offset, 2), (value.into(), 4)]),
        Call::MsixRead { id, offset, .. } => fields(0x08, &[(id, 2), (offset, 2)]),
        Call::MsixWrite { id, offset, value, .. } => fields(0x09, &[(id, 2), (offset, 2), (value.into(), 4)]),
        Call::Section { .. } => None,
        Call::Load { id, offset, .. } => fields(0x0a, &[(id, 2), (offset, 4)]),
        Call::Store { id, offset, fill, .. } => fields(0x0b, &[(id, 2), (offset, 4), (fill.into(), 1)]),
    }
}

/// The little-endian number in these bytes of a record (R76).
fn number(record: &[u8], at: std::ops::Range<usize>) -> u64 {
    record[at].iter().rev().fold(0, |number, byte| number << 8 | u64::from(*byte))
}

/// What an accepted record answers (R77).
enum Taken {
    Done(Vec<Ring>),
    Value(u32),
}

/// The hub that a log is played on, and its region.
pub struct Desk {
    /// The all-zero hub before the first set-up, and after one that is refused (R79).
    pub hub: Hub,
    pub region: Vec<u8>,
    /// What became of the last record's rings, and the refusals that applied to it, the one given first.
    pub rings: Vec<Ring>,
    pub refused: Vec<u32>,
}

impl Default for Desk {
    fn default() -> Desk {
        Desk { hub: Hub::NONE, region: Vec::new(), rings: Vec::new(), refused: Vec::new() }
    }
}

impl Desk {
    /// Plays one whole record, and puts its answer at the end of what is written (R77).
    pub fn answer(&mut self, record: &[u8], written: &mut Vec<u8>) {
        self.rings.clear();
        self.refused.clear();
        match self.play(record) {
            Err(refused) => {
                written.extend([0x80, refused.number() as u8]);
                self.refused = refused.0;
            }
            Ok(Taken::Value(value)) => {
                written.push(0x82);
                written.extend(value.to_le_bytes());
            }
            Ok(Taken::Done(rings)) => {
                written.push(0x81);
                for ring in &rings {
                    if let Ring::Delivered(delivery, _) = ring {
                        write_delivery(delivery, written);
                    }
                }
                self.rings = rings;
            }
        }
    }

    /// The call that a record is (R76), with a delivery table of 64 records (R78).
    fn play(&mut self, record: &[u8]) -> Result<Taken, Refused> {
        let (hub, region, records) = (&mut self.hub, &mut self.region, MAX_PEERS);
        let field = |at: std::ops::Range<usize>| number(record, at);
        let value = |at: usize| number(record, at..at + 4) as u32;
        let done = |()| Taken::Done(Vec::new());
        let id = field(1..3);
        match record[0] {
            0x00 => self.set_up(record).map(done),
            0x01 => hub.connect(id).map(done),
            0x02 => hub.disconnect(region, records, id).map(Taken::Done),
            0x03 => hub.reset(region, records, id).map(Taken::Done),
            0x04 => hub.configuration_read(id, field(3..5), field(5..6)).map(Taken::Value),
            0x05 => hub.configuration_write(id, field(3..5), field(5..6), value(6)).map(done),
            0x06 => hub.register_read(id, field(3..5), 4).map(Taken::Value),
            0x07 => hub.register_write(region, records, id, (field(3..5), 4), value(5)).map(Taken::Done),
            0x08 => hub.msix_read(id, field(3..5), 4).map(Taken::Value),
            0x09 => hub.msix_write(id, field(3..5), 4, value(5)).map(done),
            0x0a => {
                let mut byte = [0];
                hub.load(region, id, field(3..7), &mut byte).map(|()| Taken::Value(byte[0].into()))
            }
            _ => hub.store(region, id, field(3..7), &record[7..8]).map(done),
        }
    }

    /// A set-up "begins anew" (R79), and is refused where its T is too large (R78).
    fn set_up(&mut self, record: &[u8]) -> Result<(), Refused> {
        let field = |at: std::ops::Range<usize>| number(record, at);
        let numbers = Numbers {
            peers: field(1..3),
            vectors: field(3..5),
            state_table: field(5..9),
            read_write: field(9..17),
            output: field(17..25),
            base: field(25..33),
            protocol: field(33..35),
            subsystem_vendor: field(35..37),
            subsystem_id: field(37..39),
        };
        self.hub = Hub::NONE;
        if numbers.total() > LARGEST_TOTAL {
            return Err(Refused(vec![1]));
        }
        self.region.resize(numbers.total() as usize, 0);
        self.hub = Hub::set_up(numbers, true, &mut self.region)?;
        Ok(())
    }
}

/// "83h for each delivery: target 2, vector 2, address 8, data 4" (R77)
fn write_delivery(delivery: &Delivery, written: &mut Vec<u8>) {
    written.push(0x83);
    written.extend(delivery.target.0.to_le_bytes());
    written.extend(delivery.vector.0.to_le_bytes());
    written.extend(delivery.address.to_le_bytes());
    written.extend(delivery.data.to_le_bytes());
}

/// Cuts what it is given into records and has each answered (R80). Everything that could go wrong with it can be put in its
/// place.
pub struct Player<A> {
    /// Puts the answer to a whole record at the end of what is written.
    pub answer: A,
    pub bodies: [usize; 12],
    /// The bytes of a record that is not whole yet.
    pub held: Vec<u8>,
    stopped: bool,
}

impl<A: FnMut(&[u8], &mut Vec<u8>)> Player<A> {
    pub fn new(answer: A) -> Player<A> {
        Player { answer, bodies: BODIES, held: Vec::new(), stopped: false }
    }

    /// Takes the next piece of the log, and puts what is written for it at the end of what is written (R80).
    pub fn feed(&mut self, piece: &[u8], written: &mut Vec<u8>) {
        let mut piece = piece;
        while let (false, Some((first, _))) = (self.stopped, piece.split_first()) {
            let kind = *self.held.first().unwrap_or(first);
            let Some(body) = self.bodies.get(usize::from(kind)) else {
                written.push(UNKNOWN_KIND);
                self.stopped = true;
                return;
            };
            let missing = 1 + body - self.held.len();
            let (taken, rest) = piece.split_at(missing.min(piece.len()));
            piece = rest;
            self.held.extend_from_slice(taken);
            if taken.len() == missing {
                (self.answer)(&self.held, written);
                self.held.clear();
            }
        }
    }

    /// The log ends here (R77).
    pub fn end(&mut self, written: &mut Vec<u8>) {
        if !self.stopped && !self.held.is_empty() {
            written.push(ENDS_INSIDE);
        }
        self.stopped = true;
    }
}

/// A player of the model's answers.
#[must_use]
pub fn player() -> Player<impl FnMut(&[u8], &mut Vec<u8>)> {
    let mut desk = Desk::default();
    Player::new(move |record: &[u8], written: &mut Vec<u8>| desk.answer(record, written))
}
