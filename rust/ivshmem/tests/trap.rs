//! What becomes of a guest's access: every space, widths and offsets beyond what the library takes, and who is told of a refusal.

use ivshmem::raw::{Reply, SectionReply};
use ivshmem::trap::{self, Rights, Space, Trap};
use ivshmem::{
    CONFIGURATION_BYTES, Delivery, Hub, MSIX_BYTES, PeerId, REGISTER_BYTES, Refusal, Region, Settings, Vector,
    configuration, hub_words, msix, register,
};

const SETTINGS: Settings = Settings {
    peers: 4,
    vectors: 2,
    state_table: 4096,
    read_write: 8192,
    output: 4096,
    base: 0x8_0000_0000,
    protocol: 0x1234,
    subsystem_vendor: 0x110a,
    subsystem_id: 0x4106,
};
const WORDS: usize = hub_words(4, 2);
const BYTES: usize = 7 * 4096;
const ONE: PeerId = PeerId(1);
/// A peer that is not connected, and an id that no peer has.
const GONE: PeerId = PeerId(3);
const NOBODY: PeerId = PeerId(4);
const SPACES: [Space; 4] = [Space::Configuration, Space::Registers, Space::Msix, Space::Shared];

/// A hub with peers 0, 1 and 2 connected and switched on, and what is lent to its calls.
#[derive(Clone)]
struct Host {
    words: Vec<u32>,
    region: Vec<u8>,
    table: Vec<Delivery>,
}

impl Host {
    fn new() -> Host {
        let mut host = Host { words: vec![7; WORDS], region: vec![0; BYTES], table: vec![Delivery::default(); 4] };
        let mut hub = Hub::set_up(&mut host.words, &SETTINGS, &mut host.region).unwrap();
        for peer in (0..3).map(PeerId) {
            hub.connect(peer).unwrap();
            hub.configuration_write(peer, configuration::COMMAND, 2, 6).unwrap();
            hub.configuration_write(peer, configuration::MESSAGE_CONTROL, 2, configuration::MESSAGE_ENABLE).unwrap();
            hub.msix_write(peer, msix::DATA, 4, 0x40 + u32::from(peer.0)).unwrap();
            hub.msix_write(peer, msix::CONTROL, 4, 0).unwrap();
            let (region, table) = (&mut host.region, &mut host.table);
            hub.register_write(region, table, peer, register::INTERRUPT_CONTROL, 4, 1).unwrap();
        }
        host.region.iter_mut().enumerate().skip(16).for_each(|(at, byte)| *byte = (at % 251) as u8);
        host
    }

    fn hub(&mut self) -> Hub<'_> {
        Hub::from_words(&mut self.words)
    }

    fn trap(&mut self, peer: PeerId, space: Space) -> Trap<'_> {
        let (hub, region) = (Hub::from_words(&mut self.words), Region::from_slice(&mut self.region));
        Trap::new(hub, region, &mut self.table, peer, space)
    }

    /// What the guest reads, into bytes that are neither 0 nor FFh before.
    fn read(&mut self, peer: PeerId, space: Space, offset: u64, length: usize) -> Result<Vec<u8>, Refusal> {
        let mut data = vec![0x5a; length];
        let answer = self.trap(peer, space).read(offset, &mut data);
        if answer.is_err() {
            assert_eq!(data, ones(length), "a fault of the host shows at {offset:x} of {space:?}");
        }
        answer.map(|()| data)
    }

    fn write(&mut self, peer: PeerId, space: Space, offset: u64, data: &[u8]) -> Result<Vec<Delivery>, Refusal> {
        self.trap(peer, space).write(offset, data).map(<[Delivery]>::to_vec)
    }

    /// The access does nothing: all ones, no delivery, and no word and no byte is another.
    fn answers_nothing(&mut self, peer: PeerId, space: Space, offset: u64, length: usize) {
        let before = self.clone();
        let at = format!("{length} bytes at {offset:x} of {space:?}, peer {peer}");
        assert_eq!(self.read(peer, space, offset, length), Ok(ones(length)), "{at}");
        assert_eq!(self.write(peer, space, offset, &vec![0xa5; length]), Ok(vec![]), "{at}");
        assert!(self.words == before.words && self.region == before.region && self.table == before.table, "{at}");
    }
}

fn ones(length: usize) -> Vec<u8> {
    vec![0xff; length]
}

fn delivery(target: u16) -> Delivery {
    Delivery { address: 0, data: 0x40 + u32::from(target), target: PeerId(target), vector: Vector(0) }
}

/// An access of any width at any offset is its bytes, lowest first, and those from 256 on are not there.
#[test]
fn configuration_space() {
    let mut host = Host::new();
    let single = |host: &mut Host, at| match host.hub().configuration_read(ONE, at, 1) {
        Ok(byte) => byte as u8,
        Err(refusal) => {
            assert_eq!((refusal, at >= CONFIGURATION_BYTES), (Refusal::OutOfRange, true));
            0xff
        }
    };
    for (offset, width) in (0..=272).flat_map(|offset| (0..=16).map(move |width| (offset, width))) {
        let places = || (offset..).take(width);
        let bytes: Vec<u8> = places().map(|at| single(&mut host, at)).collect();
        assert_eq!(host.read(ONE, Space::Configuration, offset, width), Ok(bytes), "{width} bytes at {offset:x}");
        for seed in [0xff, 0x00, 0xa6] {
            let stored: Vec<u8> = (0..width as u8).map(|j| seed ^ j.wrapping_mul(0x35)).collect();
            let mut other = host.clone();
            assert_eq!(host.write(ONE, Space::Configuration, offset, &stored), Ok(vec![]));
            for (at, byte) in places().zip(stored) {
                let written = other.hub().configuration_write(ONE, at, 1, byte.into());
                assert_eq!(written.is_ok(), at < CONFIGURATION_BYTES);
            }
            assert!(host.words == other.words, "{width} bytes at {offset:x}");
        }
    }
}

/// Values in their byte order, a store over two registers, and an access that is longer than the space.
#[test]
fn configuration_values() {
    let mut host = Host::new();
    assert_eq!(host.read(ONE, Space::Configuration, 0, 4), Ok(vec![0x0a, 0x11, 0x06, 0x41]));
    assert_eq!(host.read(ONE, Space::Configuration, 1, 2), Ok(vec![0x11, 0x06]));
    assert_eq!(host.read(ONE, Space::Configuration, 0x58, 8), Ok(vec![0, 0, 0, 0, 8, 0, 0, 0]));
    assert_eq!(host.write(ONE, Space::Configuration, 0x11, &[0x12, 0x34, 0x56, 0x78, 0x9a]), Ok(vec![]));
    assert_eq!(host.hub().configuration_read(ONE, 0x10, 4), Ok(0x5634_1000));
    assert_eq!(host.hub().configuration_read(ONE, 0x14, 4), Ok(0x0000_9000));
    let long = host.read(ONE, Space::Configuration, 0, 1 << 20).unwrap();
    assert_eq!(long[..4], [0x0a, 0x11, 0x06, 0x41]);
    assert!(long[256..].iter().all(|&byte| byte == 0xff));
}

/// BAR 0 takes aligned accesses of 4 bytes, and none is cut or widened.
#[test]
fn registers() {
    let mut host = Host::new();
    assert_eq!(host.read(ONE, Space::Registers, register::MAXIMUM_PEERS, 4), Ok(vec![4, 0, 0, 0]));
    assert_eq!(host.write(ONE, Space::Registers, register::STATE, &[1, 2, 3, 4]), Ok(vec![delivery(0), delivery(2)]));
    assert_eq!(host.read(ONE, Space::Registers, register::STATE, 4), Ok(vec![1, 2, 3, 4]));
    assert_eq!(host.region[4..8], [1, 2, 3, 4]);
    for offset in (0..0x20).chain([REGISTER_BYTES - 4, REGISTER_BYTES - 1, REGISTER_BYTES, REGISTER_BYTES + 4]) {
        for width in (0..=16).chain([64, 4096]).filter(|&width| width != 4) {
            host.answers_nothing(ONE, Space::Registers, offset, width);
        }
        if !offset.is_multiple_of(4) || offset >= REGISTER_BYTES {
            host.answers_nothing(ONE, Space::Registers, offset, 4);
        }
    }
    assert_eq!(host.read(ONE, Space::Registers, REGISTER_BYTES - 4, 4), Ok(vec![0; 4]));
}

/// BAR 1 takes aligned accesses of 4 bytes, and one of 8 at a multiple of 8 as two, the lower first.
#[test]
fn entries() {
    let mut host = Host::new();
    assert_eq!(host.write(ONE, Space::Msix, 0x10, &[0xff, 1, 2, 3, 4, 5, 6, 7]), Ok(vec![]));
    assert_eq!(host.hub().msix_read(ONE, 0x10, 4), Ok(0x0302_01fc));
    assert_eq!(host.hub().msix_read(ONE, 0x14, 4), Ok(0x0706_0504));
    assert_eq!(host.read(ONE, Space::Msix, 0x10, 8), Ok(vec![0xfc, 1, 2, 3, 4, 5, 6, 7]));
    assert_eq!(host.write(ONE, Space::Msix, 0x18, &[9, 0, 0, 0]), Ok(vec![]));
    assert_eq!(host.read(ONE, Space::Msix, 0x18, 8), Ok(vec![9, 0, 0, 0, 1, 0, 0, 0]));
    assert_eq!(host.read(ONE, Space::Msix, 0x1c, 4), Ok(vec![1, 0, 0, 0]));
    assert_eq!(host.read(ONE, Space::Msix, MSIX_BYTES - 8, 8), Ok(vec![0; 8]));
    for offset in (0..0x30).chain([MSIX_BYTES - 8, MSIX_BYTES - 4, MSIX_BYTES - 1, MSIX_BYTES, MSIX_BYTES + 8]) {
        for width in (0..=24).chain([64, 4096]) {
            let whole = [4, 8].contains(&width) && offset.is_multiple_of(width) && offset + width <= MSIX_BYTES;
            if !whole {
                host.answers_nothing(ONE, Space::Msix, offset, width as usize);
            }
        }
    }
}

/// A shared access is cut at pages: each piece is done or not, as a mapping would have it.
#[test]
fn shared() {
    let mut host = Host::new();
    // State Table, read/write twice, the output sections of 0 to 3, nothing.
    let stored_to = |at: usize| (4096..12288).contains(&at) || (16384..20480).contains(&at);
    for (offset, length) in [
        (0, 1),
        (4095, 2),
        (4096, 8192),
        (12287, 2),
        (16383, 4098),
        (0, BYTES),
        (1, BYTES),
        (BYTES - 1, 1),
        (BYTES - 1, 8193),
        (BYTES, 1),
        (8190, 3 * 4096 + 7),
    ] {
        let before = host.region.clone();
        let expected: Vec<u8> = (offset..offset + length).map(|at| before.get(at).copied().unwrap_or(0xff)).collect();
        assert_eq!(host.read(ONE, Space::Shared, offset as u64, length), Ok(expected), "{length} at {offset}");
        let bytes: Vec<u8> = (0..length).map(|j| !(j % 241) as u8).collect();
        assert_eq!(host.write(ONE, Space::Shared, offset as u64, &bytes), Ok(vec![]));
        for (at, (was, is)) in before.iter().zip(&host.region).enumerate() {
            let stored = at.checked_sub(offset).and_then(|j| bytes.get(j)).filter(|_| stored_to(at));
            assert_eq!(is, stored.unwrap_or(was), "{length} at {offset}: byte {at}");
        }
    }
    host.answers_nothing(ONE, Space::Shared, 5, 0);
    host.answers_nothing(ONE, Space::Shared, BYTES as u64, 5000);
    // Not tied to Command.
    assert_eq!(host.write(ONE, Space::Configuration, configuration::COMMAND, &[0]), Ok(vec![]));
    assert_eq!(host.write(ONE, Space::Shared, 4096, b"on"), Ok(vec![]));
    assert_eq!(host.read(ONE, Space::Shared, 4096, 2), Ok(b"on".to_vec()));
}

/// An empty slot: a peer that is not connected. With Command bit 1 off, the two BARs are one too.
#[test]
fn disconnected() {
    let mut host = Host::new();
    for (space, length) in SPACES.into_iter().flat_map(|space| [0, 1, 2, 3, 4, 8, 16].map(|length| (space, length))) {
        for offset in [0, 4, 8, 0x10, 0xfc, 4096, 16384] {
            host.answers_nothing(GONE, space, offset, length);
        }
    }
    assert_eq!(host.write(ONE, Space::Configuration, configuration::COMMAND, &[4]), Ok(vec![]));
    for (space, offset) in [(Space::Registers, register::STATE), (Space::Msix, 0), (Space::Msix, 0x18)] {
        host.answers_nothing(ONE, space, offset, 4);
        host.answers_nothing(ONE, space, offset, 8);
    }
}

/// No offset is too large: sums that 64 bits do not hold are answered like any other.
#[test]
fn offsets_near_the_end() {
    let mut host = Host::new();
    for (space, length) in
        SPACES.into_iter().flat_map(|space| [0, 1, 2, 4, 8, 16, 4096, 10000].map(|length| (space, length)))
    {
        for offset in (0..=32).chain([4095, 4096, 4097]).map(|back| u64::MAX - back).chain([1 << 32, 1 << 63]) {
            host.answers_nothing(ONE, space, offset, length);
        }
    }
}

/// The deliveries are those of the library, in ring order; other spaces have none, whatever the table holds.
#[test]
fn deliveries_in_order() {
    let mut host = Host::new();
    host.table.fill(delivery(9));
    assert_eq!(
        host.write(PeerId(0), Space::Registers, register::STATE, &[5, 0, 0, 0]),
        Ok(vec![delivery(1), delivery(2)])
    );
    assert_eq!(
        host.write(PeerId(2), Space::Registers, register::STATE, &[5, 0, 0, 0]),
        Ok(vec![delivery(0), delivery(1)])
    );
    assert_eq!(host.write(PeerId(2), Space::Registers, register::STATE, &[5, 0, 0, 0]), Ok(vec![]));
    assert_eq!(host.write(ONE, Space::Registers, register::DOORBELL, &[0, 0, 2, 0]), Ok(vec![delivery(2)]));
    assert_eq!(host.write(ONE, Space::Registers, register::DOORBELL, &[1, 0, 2, 0]), Ok(vec![]));
    assert_eq!(host.write(ONE, Space::Configuration, register::DOORBELL, &[0, 0, 2, 0]), Ok(vec![]));
    assert_eq!(host.write(ONE, Space::Shared, 4096 + register::DOORBELL, &[0, 0, 2, 0]), Ok(vec![]));
    // Nor does an access of 8 bytes that ends at the Doorbell ring.
    assert_eq!(host.write(ONE, Space::Registers, register::INTERRUPT_CONTROL, &[1, 0, 0, 0, 0, 0, 2, 0]), Ok(vec![]));
}

/// Faults of the host are told to it, and show to no guest: damaged words, a wrong region, a short table, a wrong id.
#[test]
fn faults() {
    let damaged = Host { words: vec![0; WORDS], ..Host::new() };
    let cut = Host { region: vec![0; BYTES - 1], ..Host::new() };
    let short = Host { table: vec![Delivery::default(); 3], ..Host::new() };
    let sound = Host::new();
    for space in SPACES {
        let (registers, shared) = (space == Space::Registers, space == Space::Shared);
        let fault = |fails: bool, refusal: Refusal| fails.then_some(refusal);
        for (host, peer, read, write) in [
            (&damaged, ONE, Some(Refusal::UnsoundHub), Some(Refusal::UnsoundHub)),
            (&sound, NOBODY, Some(Refusal::NoSuchPeer), Some(Refusal::NoSuchPeer)),
            (&cut, ONE, fault(shared, Refusal::BadRegion), fault(shared || registers, Refusal::BadRegion)),
            (&short, ONE, None, fault(registers, Refusal::ShortTable)),
            (&sound, ONE, None, None),
        ] {
            // The last offset is one that a guest's own refusal would come for, were it not the host's first.
            for (offset, length) in [(0x10, 4), (0x10, 8), (4096, 4), (3, 4), (u64::MAX, 2)] {
                let mut host = host.clone();
                let before = host.clone();
                assert_eq!(
                    host.read(peer, space, offset, length).err(),
                    faulty(read, space, offset),
                    "{space:?} {offset:x}"
                );
                let data = vec![0xa5; length];
                assert_eq!(
                    host.write(peer, space, offset, &data).err(),
                    faulty(write, space, offset),
                    "{space:?} {offset:x}"
                );
                if write.is_some() {
                    assert!(host.words == before.words && host.region == before.region && host.table == before.table);
                }
            }
        }
    }
}

#[test]
fn faults_met_by_questions() {
    let (mut damaged, mut sound) = (Host { words: vec![0; WORDS], ..Host::new() }, Host::new());
    for (hub, peer, fault) in [(damaged.hub(), ONE, Refusal::UnsoundHub), (sound.hub(), NOBODY, Refusal::NoSuchPeer)] {
        assert_eq!(trap::bars(&hub, peer), Err(fault));
        assert_eq!(trap::rights(&hub, peer, 0, 1), Err(fault));
    }
}

/// Configuration space ends at 256, so that an access beyond it makes no call that could meet a fault.
fn faulty(fault: Option<Refusal>, space: Space, offset: u64) -> Option<Refusal> {
    fault.filter(|_| space != Space::Configuration || offset < CONFIGURATION_BYTES)
}

#[test]
fn moved_traps() {
    for (offset, length) in (0..=300).flat_map(|offset| (0..=20).map(move |length| (offset, length))) {
        let touches = |at| (offset..offset + length as u64).contains(&at);
        let expected = touches(0x04) || (0x10..0x18).any(touches);
        assert_eq!(trap::moves_traps(offset, length), expected, "{length} bytes at {offset:x}");
    }
    assert!([0, 4, 0x17].into_iter().all(|offset| trap::moves_traps(offset, usize::MAX)));
    assert!([0x18, u64::MAX].into_iter().all(|offset| !trap::moves_traps(offset, usize::MAX)));
}

#[test]
fn places_of_bars() {
    let mut host = Host::new();
    let bars = |host: &mut Host, peer| trap::bars(&host.hub(), peer);
    assert_eq!(bars(&mut host, ONE), Ok([Some(0), Some(0)]));
    assert_eq!(host.write(ONE, Space::Configuration, 0x10, &[0, 0x10, 0xbd, 0xfe, 0xff, 0xff, 0xff, 0xff]), Ok(vec![]));
    assert_eq!(bars(&mut host, ONE), Ok([Some(0xfebd_1000), Some(0xffff_f000)]));
    assert_eq!(host.write(ONE, Space::Configuration, configuration::COMMAND, &[4]), Ok(vec![]));
    assert_eq!(bars(&mut host, ONE), Ok([None, None]));
    assert_eq!(host.write(ONE, Space::Configuration, configuration::COMMAND, &[2]), Ok(vec![]));
    assert_eq!(bars(&mut host, ONE), Ok([Some(0xfebd_1000), Some(0xffff_f000)]));
    assert_eq!(bars(&mut host, PeerId(0)), Ok([Some(0), Some(0)]));
    assert_eq!(bars(&mut host, GONE), Ok([None, None]));
}

#[test]
fn rights_of_pages() {
    use Rights::{Nothing, Read, ReadWrite};
    let mut host = Host::new();
    let hub = host.hub();
    let pages = |peer| (0..8).map(|page| trap::rights(&hub, peer, 4096 * page, 4096).unwrap()).collect::<Vec<_>>();
    assert_eq!(pages(PeerId(0)), [Read, ReadWrite, ReadWrite, ReadWrite, Read, Read, Read, Nothing]);
    assert_eq!(pages(ONE), [Read, ReadWrite, ReadWrite, Read, ReadWrite, Read, Read, Nothing]);
    assert_eq!(pages(GONE), [Nothing; 8]);
    for (offset, length, rights) in [
        (4096, 8192, ReadWrite),
        (4095, 2, Nothing),
        (0, 0, Nothing),
        (4096, 8193, Nothing),
        (u64::MAX, 2, Nothing),
        (0, u64::MAX, Nothing),
    ] {
        assert_eq!(trap::rights(&hub, ONE, offset, length), Ok(rights), "{length} at {offset}");
    }
    // A section that has no name yet is not mapped, whatever right comes with it.
    let unknown = SectionReply { reply: Reply::default(), kind: 4, owner: 1, store: 1 };
    assert_eq!(Rights::from(unknown.result().unwrap()), Nothing);
}
