//! Players of logs in Rust, to measure the proved program by: each reads standard input and writes standard output.

use std::borrow::BorrowMut;
use std::io::{self, ErrorKind, Read, Write};

use ivshmem::{Delivery, MAX_PEERS, Settings};
use ivshmem_log::{Cutter, LONGEST_REGION, Record};
use model::call::Call;
use model::subject::Answer;

use crate::device::{Device, Lending};
use crate::state::Form;
use crate::yardstick::PlainStruct;

/// The players, by the names that they are asked for with.
pub const PLAYERS: [&str; 3] = ["library", "plain", "model"];

/// Bytes that are read at a time.
const PIECE: usize = 1 << 16;

/// Plays standard input by one of [`PLAYERS`]. What is asked here has no faults, so none are looked for at its end.
///
/// # Errors
/// What reading or writing gives.
pub fn play(player: &str) -> io::Result<()> {
    match player {
        "library" => {
            let mut player = ivshmem_log::Player::default();
            serve(|piece, written| player.play(piece, written))
        }
        "plain" => {
            let mut player = Plays::<PlainStruct>::new();
            serve(|piece, written| player.play(piece, written))
        }
        _ => {
            let mut player = model::log::player();
            serve(|piece, written| player.feed(piece, written))
        }
    }
}

fn serve(mut play: impl FnMut(&[u8], &mut Vec<u8>)) -> io::Result<()> {
    let (mut input, mut output) = (io::stdin().lock(), io::stdout().lock());
    let (mut piece, mut written) = (vec![0; PIECE], Vec::new());
    loop {
        let bytes = match input.read(&mut piece) {
            Ok(0) => return output.flush(),
            Ok(bytes) => bytes,
            Err(error) if error.kind() == ErrorKind::Interrupted => continue,
            Err(error) => return Err(error),
        };
        written.clear();
        play(&piece[..bytes], &mut written);
        output.write_all(&written)?;
    }
}

/// A player on a yardstick.
struct Plays<D: Device> {
    cutter: Cutter,
    hub: <D::Hub as Form>::Owned,
    region: Vec<u8>,
    table: [Delivery; MAX_PEERS],
}

impl<D: Device> Plays<D> {
    fn new() -> Plays<D> {
        let (hub, table) = (D::Hub::owned(&[]), [Delivery::default(); MAX_PEERS]);
        Plays { cutter: Cutter::default(), hub, region: Vec::new(), table }
    }

    fn play(&mut self, mut piece: &[u8], written: &mut Vec<u8>) {
        while let Some(Ok(placed)) = self.cutter.next(&mut piece) {
            self.answer(&placed.record, written);
        }
    }

    fn answer(&mut self, record: &Record, written: &mut Vec<u8>) {
        let (call, byte) = call_of(record);
        let mut buffer = [byte];
        let answer = match call {
            Call::SetUp(settings) if !self.make_room(&settings) => Answer { number: 1, ..Answer::default() },
            _ => {
                let lending = Lending { region: &mut self.region, table: &mut self.table, buffer: &mut buffer };
                D::perform(self.hub.borrow_mut(), &call, lending)
            }
        };
        match (answer.number, record) {
            (1.., _) => written.extend([0x80, answer.number as u8]),
            (_, Record::Load { .. }) => written.extend([0x82, buffer[0], 0, 0, 0]),
            (_, Record::ConfigurationRead { .. } | Record::RegisterRead { .. } | Record::MsixRead { .. }) => {
                written.push(0x82);
                written.extend(answer.value.to_le_bytes());
            }
            _ => {
                written.push(0x81);
                self.table[..answer.count].iter().for_each(|delivery| write_delivery(delivery, written));
            }
        }
    }

    /// A hub and a region as large as the set-up asks for; no hub where a log does not take it.
    fn make_room(&mut self, settings: &Settings) -> bool {
        self.hub = D::Hub::owned(&[]);
        let total = settings.total().filter(|&total| total <= LONGEST_REGION);
        let Some((total, words)) = total.zip(settings.hub_words()) else { return false };
        let mut asking = vec![0; words];
        (asking[0], asking[1]) = (settings.peers as u32, settings.vectors as u32);
        self.hub = D::Hub::owned(&asking);
        self.region.resize(total, 0);
        true
    }
}

fn write_delivery(delivery: &Delivery, written: &mut Vec<u8>) {
    written.push(0x83);
    written.extend(delivery.target.0.to_le_bytes());
    written.extend(delivery.vector.0.to_le_bytes());
    written.extend(delivery.address.to_le_bytes());
    written.extend(delivery.data.to_le_bytes());
}

/// The call that a record is, and the byte that it stores.
fn call_of(record: &Record) -> (Call, u8) {
    let call = match *record {
        Record::SetUp(numbers) => Call::SetUp(numbers.into()),
        Record::Connect { peer } => Call::Connect { id: peer.0.into() },
        Record::Disconnect { peer } => Call::Disconnect { id: peer.0.into() },
        Record::Reset { peer } => Call::Reset { id: peer.0.into() },
        Record::ConfigurationRead { peer, offset, width } => {
            Call::ConfigurationRead { id: peer.0.into(), offset: offset.into(), width: width.into() }
        }
        Record::ConfigurationWrite { peer, offset, width, value } => {
            Call::ConfigurationWrite { id: peer.0.into(), offset: offset.into(), width: width.into(), value }
        }
        Record::RegisterRead { peer, offset } => {
            Call::RegisterRead { id: peer.0.into(), offset: offset.into(), width: 4 }
        }
        Record::RegisterWrite { peer, offset, value } => {
            Call::RegisterWrite { id: peer.0.into(), offset: offset.into(), width: 4, value }
        }
        Record::MsixRead { peer, offset } => Call::MsixRead { id: peer.0.into(), offset: offset.into(), width: 4 },
        Record::MsixWrite { peer, offset, value } => {
            Call::MsixWrite { id: peer.0.into(), offset: offset.into(), width: 4, value }
        }
        Record::Load { peer, offset } => Call::Load { id: peer.0.into(), offset: offset.into(), length: 1 },
        Record::Store { peer, offset, byte } => {
            return (Call::Store { id: peer.0.into(), offset: offset.into(), length: 1, fill: byte }, byte);
        }
    };
    (call, 0)
}
