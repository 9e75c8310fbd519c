//! What is timed: calls with the hubs that they find.

use ivshmem::{Delivery, MAX_PEERS, MAX_VECTORS, PeerId, Settings, Vector, msix, register};
use model::call::Call;
use model::subject::Answer;

use crate::device::{Device, Lending, Library};

/// Calls of a round, each on a hub of its own. Few, so that all hubs stay in a near cache; [`million`](crate::million) makes its
/// calls on one alone, which stays in the nearest.
pub const ROUND: usize = 16;
/// Bytes of a shared load or store.
pub const SHARED_BYTES: usize = 64;

const PAGE: u64 = 4096;

/// A row of the table.
pub struct Case {
    pub name: String,
    /// Calls that differ a little, and the hub that each finds. The rounds take two lists in turn, which are the same but for
    /// State stores: each of these finds the value of the other list, so that it is a change.
    pub calls: [Vec<Call>; 2],
    pub hubs: Vec<Vec<u32>>,
    pub region_bytes: usize,
    /// Whether a call can be made again on the hub that it left, with an answer of the same kind.
    pub repeatable: bool,
    /// Every call's number and count of deliveries.
    pub number: u32,
    pub deliveries: usize,
    /// Whether the calls are made on a device that does nothing, and on no other.
    pub empty: bool,
}

impl Case {
    fn new(name: &str, settings: &Settings, make: impl Fn(u64) -> Call) -> Case {
        let calls: Vec<Call> = (0..ROUND as u64).map(make).collect();
        Case {
            name: name.into(),
            calls: [calls.clone(), calls],
            hubs: vec![booted(settings, |_| true); ROUND],
            region_bytes: settings.total().expect("a small region"),
            repeatable: true,
            number: 0,
            deliveries: 0,
            empty: false,
        }
    }

    fn refused(self, number: u32) -> Case {
        Case { name: format!("{}: refused {number}", self.name), number, ..self }
    }

    fn delivering(self, deliveries: usize) -> Case {
        Case { deliveries, ..self }
    }

    fn once(self) -> Case {
        Case { repeatable: false, ..self }
    }

    /// State stores by these ids, of which each changes State.
    fn changing(name: &str, settings: &Settings, id: impl Fn(u64) -> u64) -> Case {
        let calls = [0, ROUND as u64].map(|turn| (0..ROUND as u64).map(|k| state_store(id(k), turn + k)).collect());
        Case { calls, ..Case::new(name, settings, |k| state_store(id(k), k)) }
    }

    /// Every call finds this hub changed by a call with its id.
    fn after(self, change: impl Fn(u64) -> Call) -> Case {
        let mut hubs = self.hubs;
        for (k, hub) in hubs.iter_mut().enumerate() {
            make(hub, &mut vec![0; self.region_bytes], &change(k as u64));
        }
        Case { hubs, ..self }
    }
}

/// The library's answer to a call on these words.
fn make(hub: &mut [u32], region: &mut [u8], call: &Call) -> Answer {
    let table = &mut [Delivery::default(); MAX_PEERS];
    Library::perform(hub, call, Lending { region, table, buffer: &mut [] })
}

/// How many peers and vectors a hub is set up with.
#[derive(Clone, Copy)]
pub struct Size {
    pub peers: u64,
    pub vectors: u64,
}

/// Two small hubs, and the most that there can be.
pub const SIZES: [Size; 3] = [Size { peers: 4, vectors: 4 }, Size { peers: 8, vectors: 4 }, Size::LARGEST];

impl Size {
    pub const LARGEST: Size = Size { peers: MAX_PEERS as u64, vectors: MAX_VECTORS as u64 };

    #[must_use]
    pub fn settings(self) -> Settings {
        Settings {
            peers: self.peers,
            vectors: self.vectors,
            state_table: PAGE,
            read_write: PAGE,
            output: PAGE,
            base: 0x1_0000_0000,
            protocol: 1,
            subsystem_vendor: 0x110a,
            subsystem_id: 0x4106,
        }
    }

    /// Ids in turn, spread over all of them.
    fn peer(self, k: u64) -> u64 {
        5 * k % self.peers
    }

    /// Entries in turn, and of each another word.
    fn entry_word(self, k: u64) -> u64 {
        16 * (k % self.vectors) + 4 * (k / 4 % 4)
    }

    fn others(self) -> usize {
        self.peers as usize - 1
    }
}

/// A hub with all peers connected and set up by their drivers, of which the chosen ones let interrupts through.
#[must_use]
pub fn booted(settings: &Settings, armed: impl Fn(u64) -> bool) -> Vec<u32> {
    let mut hub = vec![0; settings.hub_words().expect("a hub's peers and vectors")];
    let mut region = vec![0; settings.total().expect("a small region")];
    let mut calls = vec![Call::SetUp(*settings)];
    for id in 0..settings.peers {
        calls.push(Call::Connect { id });
        calls.push(Call::ConfigurationWrite { id, offset: 0x04, width: 2, value: 0x0006 });
        calls.push(Call::ConfigurationWrite { id, offset: 0x62, width: 2, value: 0x8000 });
        for vector in 0..settings.vectors {
            let word = |at: u64, value: u32| Call::MsixWrite { id, offset: 16 * vector + at, width: 4, value };
            calls.push(word(msix::ADDRESS_LOW, 0xfee0_0000));
            calls.push(word(msix::DATA, 0x40 + (settings.vectors * id + vector) as u32));
            calls.push(word(msix::CONTROL, 0));
        }
        let value = armed(id).into();
        calls.push(Call::RegisterWrite { id, offset: register::INTERRUPT_CONTROL, width: 4, value });
    }
    for call in &calls {
        assert_eq!(make(&mut hub, &mut region, call), Answer::default(), "{call}");
    }
    hub
}

fn one_of(choices: &[u64], k: u64) -> u64 {
    choices[k as usize % choices.len()]
}

fn register_write(id: u64, offset: u64, value: u32) -> Call {
    Call::RegisterWrite { id, offset, width: 4, value }
}

fn state_store(id: u64, k: u64) -> Call {
    register_write(id, register::STATE, k as u32 + 1)
}

fn load(id: u64, offset: u64) -> Call {
    Call::Load { id, offset, length: SHARED_BYTES }
}

fn store(id: u64, offset: u64) -> Call {
    Call::Store { id, offset, length: SHARED_BYTES, fill: 0 }
}

/// In turn in the common section and in the output section of `owner`.
fn shared_offset(owner: u64, k: u64) -> u64 {
    let start = if k.is_multiple_of(2) { PAGE } else { 2 * PAGE + owner * PAGE };
    start + 8 * k
}

/// At the places of a word in turn, in words with a rule.
fn configuration_read(id: u64, k: u64, width: u64) -> Call {
    let word = one_of(&[0x00, 0x04, 0x08, 0x10, 0x14, 0x2c, 0x40, 0x44, 0x50, 0x58, 0x60, 0x64], k);
    Call::ConfigurationRead { id, offset: word + width * k % 4, width }
}

fn configuration_write(id: u64, k: u64) -> Call {
    let (offset, width, value) = match k % 4 {
        0 => (0x04, 2, 0x0006),
        1 => (0x10, 4, 0xfebf_0000 + 0x1000 * k as u32),
        2 => (0x14, 4, 0xfebe_0000 + 0x1000 * k as u32),
        _ => (0x62, 2, 0x8000),
    };
    Call::ConfigurationWrite { id, offset, width, value }
}

/// Every call on a hub of this size: accepted, ringing, and refused.
#[must_use]
pub fn all(size: Size) -> Vec<Case> {
    [vec![empty(size)], accepted(size), rings(size), refused(size)].into_iter().flatten().collect()
}

/// A register write that does nothing: what of the other rows is the harness and the call.
fn empty(size: Size) -> Case {
    let call = |k| register_write(size.peer(k), register::INTERRUPT_CONTROL, 1);
    Case { empty: true, ..Case::new("empty call", &size.settings(), call) }
}

/// Every call, accepted.
fn accepted(size: Size) -> Vec<Case> {
    let settings = size.settings();
    let small = Settings { read_write: 0, output: 0, ..settings };
    let case = |name: &str, make: &dyn Fn(u64, u64) -> Call| Case::new(name, &settings, |k| make(size.peer(k), k));
    let next = |k| size.peer(k + 1);
    vec![
        Case::new("set up, region of 4096 bytes", &small, |k| Call::SetUp(Settings { protocol: k as u16, ..small })),
        case("connect", &|id, _| Call::Connect { id }).after(|k| Call::Disconnect { id: size.peer(k) }).once(),
        case("disconnect, State 0", &|id, _| Call::Disconnect { id }).once(),
        case("reset, State 0", &|id, _| Call::Reset { id }),
        case("configuration read, 1 byte", &|id, k| configuration_read(id, k, 1)),
        case("configuration read, 2 bytes", &|id, k| configuration_read(id, k, 2)),
        case("configuration read, 4 bytes", &|id, k| configuration_read(id, k, 4)),
        case("configuration write, 1 byte", &|id, k| {
            let offset = one_of(&[0x04, 0x05, 0x11, 0x13, 0x16, 0x17, 0x63], k);
            Call::ConfigurationWrite { id, offset, width: 1, value: 0x86 }
        }),
        case("configuration write, 2 or 4 bytes", &configuration_write),
        case("register read", &|id, k| {
            let offset = one_of(&[register::ID, register::MAXIMUM_PEERS, register::STATE], k);
            Call::RegisterRead { id, offset, width: 4 }
        }),
        case("register write, Interrupt Control", &|id, _| register_write(id, register::INTERRUPT_CONTROL, 1)),
        case("MSI-X read", &|id, k| Call::MsixRead { id, offset: size.entry_word(k), width: 4 }),
        case("MSI-X write", &|id, k| {
            let offset = size.entry_word(k);
            Call::MsixWrite { id, offset, width: 4, value: 16 * k as u32 }
        }),
        case("section question", &|id, k| Call::Section { id, offset: shared_offset(next(k), k), length: 64 }),
        case("load, 64 bytes", &|id, k| load(id, shared_offset(next(k), k))),
        case("store, 64 bytes", &|id, k| store(id, shared_offset(id, k))),
    ]
}

/// The calls that ring.
fn rings(size: Size) -> Vec<Case> {
    let settings = size.settings();
    let receiver = size.peers - 1;
    let doorbell = |k: u64| {
        let (target, vector) = (PeerId(size.peer(k + 1) as u16), Vector((k % size.vectors) as u16));
        register_write(size.peer(k), register::DOORBELL, register::doorbell(target, vector))
    };
    let one = Case {
        hubs: vec![booted(&settings, |id| id == receiver); ROUND],
        ..Case::changing("State store, one other delivered", &settings, |k| k % receiver)
    };
    let stored = |k: u64| state_store(size.peer(k), k);
    let leaving = |name: &str, make: &dyn Fn(u64) -> Call| {
        Case::new(name, &settings, |k| make(size.peer(k))).after(stored).delivering(size.others()).once()
    };
    vec![
        Case::new("doorbell, delivered", &settings, doorbell).delivering(1),
        Case::new("State store, no change", &settings, stored).after(stored),
        one.delivering(1),
        Case::changing("State store, all others delivered", &settings, |k| size.peer(k)).delivering(size.others()),
        leaving("reset, all others delivered", &|id| Call::Reset { id }),
        leaving("disconnect, all others delivered", &|id| Call::Disconnect { id }),
    ]
}

/// How a State store grows with the peers, at the most vectors.
#[must_use]
pub fn growth_by_peers() -> Vec<Case> {
    [2, 4, 8, 16, 32, 64].map(|peers| grown(Size { peers, ..Size::LARGEST })).into()
}

/// How it grows with the vectors, at the most peers.
#[must_use]
pub fn growth_by_vectors() -> Vec<Case> {
    [1, 2, 4, 8, 16].map(|vectors| grown(Size { vectors, ..Size::LARGEST })).into()
}

fn grown(size: Size) -> Case {
    let name = format!("State store at {} by {}, all {} delivered", size.peers, size.vectors, size.others());
    Case::changing(&name, &size.settings(), |k| size.peer(k)).delivering(size.others())
}

/// Every call refused as late as it can be, and check 10 alone.
fn refused(size: Size) -> Vec<Case> {
    let settings = size.settings();
    let case = |name: &str, make: &dyn Fn(u64, u64) -> Call| Case::new(name, &settings, |k| make(size.peer(k), k));
    let gone =
        |name: &str, make: &dyn Fn(u64, u64) -> Call| case(name, make).after(|k| Call::Disconnect { id: size.peer(k) });
    let behind = |k: u64| PAGE + 4 * k;
    let write = |id, k| Call::ConfigurationWrite { id, offset: 256 + 4 * k, width: 4, value: 0 };
    vec![
        // The id test is the first behind check 10.
        case("check 10 alone (register read with a wrong id)", &|_, k| Call::RegisterRead {
            id: size.peers + k,
            offset: register::ID,
            width: 4,
        })
        .refused(3),
        case("set up", &|_, k| Call::SetUp(Settings { base: settings.base + 1 + k, ..settings })).refused(1),
        case("set up", &|_, k| Call::SetUp(Settings { protocol: k as u16, peers: size.peers - 1, ..settings }))
            .refused(10),
        case("connect", &|id, _| Call::Connect { id }).refused(5),
        gone("disconnect", &|id, _| Call::Disconnect { id }).refused(4),
        gone("reset", &|id, _| Call::Reset { id }).refused(4),
        case("configuration read", &|id, k| Call::ConfigurationRead { id, offset: 256 + k, width: 1 }).refused(8),
        case("configuration write", &write).refused(8),
        case("register read", &|id, k| Call::RegisterRead { id, offset: behind(k), width: 4 }).refused(8),
        case("register write", &|id, k| register_write(id, behind(k), 1)).refused(8),
        case("MSI-X read", &|id, k| Call::MsixRead { id, offset: behind(k), width: 4 }).refused(8),
        case("MSI-X write", &|id, k| Call::MsixWrite { id, offset: behind(k), width: 4, value: 0 }).refused(8),
        case("section question", &|id, k| Call::Section { id, offset: 2 * PAGE - 8 - k, length: 64 }).refused(8),
        case("load", &|id, k| load(id, 2 * PAGE - 8 - k)).refused(8),
        case("store", &|id, k| store(id, 2 * PAGE + size.peer(k + 1) * PAGE)).refused(9),
    ]
}
