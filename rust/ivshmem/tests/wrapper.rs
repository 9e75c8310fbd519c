//! Every method of the wrapper, and every refusal through it.

use std::error::Error;

use ivshmem::raw::{self, Reply, SectionReply};
use ivshmem::trap::{Space, Trap};
use ivshmem::{
    CONFIGURATION_BYTES, Delivery, Hub, MAX_HUB_WORDS, MAX_PEERS, MAX_VECTORS, MIN_BASE, MSIX_BYTES, PeerId, Placement,
    REGISTER_BYTES, Refusal, Region, Section, Settings, Vector, hub_words, msix, register,
};

const ZERO: PeerId = PeerId(0);
const ONE: PeerId = PeerId(1);
const SETTINGS: Settings = Settings {
    peers: 3,
    vectors: 2,
    state_table: 4096,
    read_write: 8192,
    output: 4096,
    base: 0x8_0000_0000,
    protocol: 0x1234,
    subsystem_vendor: 0x110a,
    subsystem_id: 0x4106,
};

const WORDS: usize = hub_words(3, 2);
/// What words hold before a set-up.
const ANY: [u32; WORDS] = [7; WORDS];

/// A hub with peers 0 and 1 connected, its region and a table.
struct Host<'a> {
    hub: Hub<'a>,
    region: Vec<u8>,
    table: [Delivery; 3],
}

impl<'a> Host<'a> {
    fn new(words: &'a mut [u32]) -> Host<'a> {
        let mut region = vec![0xee; SETTINGS.total().unwrap()];
        let mut hub = Hub::set_up(words, &SETTINGS, &mut region).unwrap();
        assert!(region.iter().all(|&byte| byte == 0));
        hub.connect(ZERO).unwrap();
        hub.connect(ONE).unwrap();
        Host { hub, region, table: Default::default() }
    }

    fn write(&mut self, peer: PeerId, offset: u64, value: u32) -> Result<&[Delivery], Refusal> {
        self.hub.register_write(&mut self.region, &mut self.table, peer, offset, 4, value)
    }

    /// All switches on, and this data in entry 0.
    fn switch_on(&mut self, peer: PeerId, data: u32) {
        self.hub.configuration_write(peer, 0x04, 2, 0x0006).unwrap();
        self.hub.configuration_write(peer, 0x62, 2, 0x8000).unwrap();
        for (offset, value) in
            [(msix::ADDRESS_LOW, 0xfee0_0000), (msix::ADDRESS_HIGH, 1), (msix::DATA, data), (msix::CONTROL, 0)]
        {
            self.hub.msix_write(peer, offset, 4, value).unwrap();
        }
        assert_eq!(self.write(peer, register::INTERRUPT_CONTROL, 1), Ok(&[][..]));
    }
}

fn delivery(target: PeerId, data: u32) -> Delivery {
    Delivery { address: 0x1_fee0_0000, data, target, vector: Vector(0) }
}

#[test]
fn numbers_of_refusals() {
    assert_eq!(Refusal::ALL.map(Refusal::number), [1, 2, 3, 4, 5, 6, 7, 8, 9, 10, 11]);
    for refusal in Refusal::ALL {
        assert_eq!(Refusal::from_number(refusal.number()), Some(refusal));
        assert_eq!(Reply { number: refusal.number(), value: 0 }.result(), Err(refusal));
        let error: Box<dyn Error> = refusal.into();
        assert_eq!(error.to_string(), refusal.reason());
    }
    assert_eq!(Refusal::from_number(0), None);
    assert_eq!(Reply { number: 0, value: 7 }.result(), Ok(7));

    let mut reasons = Refusal::ALL.map(Refusal::reason).to_vec();
    reasons.sort_unstable();
    reasons.dedup();
    assert_eq!(reasons.len(), Refusal::ALL.len());
}

/// A number that this crate does not know is none that it knows, and is kept.
#[test]
fn unknown_numbers() {
    for number in [12, 13, 255, 256, 0x0001_000a, u32::MAX] {
        let refusal = Reply { number, value: 7 }.result().unwrap_err();
        assert_eq!(refusal, Refusal::Unknown(number));
        assert_eq!((refusal.number(), refusal.reason()), (number, "an unknown number"));
        assert_eq!(Refusal::from_number(number), Some(refusal));
        assert!(!Refusal::ALL.contains(&refusal));
        assert_eq!(refusal.to_string(), format!("an unknown number, {number}"));
    }
}

/// Kinds and owners that this crate does not know are no section that it knows.
#[test]
fn unknown_sections() {
    let answer = |kind, owner, store| SectionReply { reply: Reply::default(), kind, owner, store };
    let placed = |kind, owner, store| answer(kind, owner, store).result().unwrap();
    for (kind, owner, section) in [
        (1, 0, Section::StateTable),
        (2, 0, Section::ReadWrite),
        (3, 0, Section::Output(ZERO)),
        (3, 0xffff, Section::Output(PeerId(0xffff))),
    ] {
        assert_eq!(placed(kind, owner, 1), Placement { section, may_store: true });
        assert_eq!(placed(kind, owner, 0), Placement { section, may_store: false });
        assert_eq!(placed(kind, owner, 2), Placement { section, may_store: false });
    }
    for (kind, owner) in [(0, 0), (4, 1), (u32::MAX, 0), (3, 0x1_0000), (3, 0x1_0001)] {
        assert_eq!(placed(kind, owner, 0), Placement { section: Section::Unknown { kind, owner }, may_store: false });
    }
    let refused = SectionReply { reply: refused(12), ..answer(3, 1, 1) };
    assert_eq!(refused.result().unwrap_err().number(), 12);
}

/// No id and no vector is cut to 16 bits: a number that is too large is refused.
#[test]
fn wider_numbers() {
    fn both<T: Copy + TryInto<PeerId> + TryInto<Vector>>(number: T) -> (Option<PeerId>, Option<Vector>) {
        (number.try_into().ok(), number.try_into().ok())
    }
    for number in [0, 1, 63, 0xffff] {
        let whole = (Some(PeerId(number)), Some(Vector(number)));
        assert_eq!([both(u32::from(number)), both(u64::from(number)), both(usize::from(number))], [whole; 3]);
    }
    for number in [0x1_0000, 0x1_0001, u32::MAX] {
        assert_eq!([both(number), both(u64::from(number)), both(number as usize)], [(None, None); 3]);
    }
    for number in [1 << 32, u64::MAX] {
        assert_eq!([both(number), both(number as usize)], [(None, None); 2]);
    }
}

/// The Doorbell has room for all of both numbers.
#[test]
fn doorbells() {
    assert_eq!(register::doorbell(PeerId(3), Vector(1)), 0x0003_0001);
    assert_eq!(register::doorbell(PeerId(63), Vector(15)), 0x003f_000f);
    assert_eq!(register::doorbell(PeerId(0xffff), Vector(0)), 0xffff_0000);
    assert_eq!(register::doorbell(PeerId(0), Vector(0xffff)), 0x0000_ffff);
    assert_eq!(register::doorbell(PeerId(0x8001), Vector(0x4002)), 0x8001_4002);
}

/// The compiler warns of an answer that nobody looks at: were one of these warnings not given, it would be an error here.
#[test]
#[deny(unfulfilled_lint_expectations)]
fn dropped_answers() {
    let (mut words, mut region, mut table) = (ANY, [0; 4096], [Delivery::default(); 3]);
    #[expect(unused_must_use)]
    raw::set_up(&mut words, &mut region, &SETTINGS);
    #[expect(unused_must_use)]
    raw::is_sound(&words);
    #[expect(unused_must_use)]
    raw::connect(&mut words, 0);
    #[expect(unused_must_use)]
    raw::reset(&mut words, &mut region, &mut table, 0);
    #[expect(unused_must_use)]
    raw::section_question(&words, 0, 0, 1);
    let mut hub = Hub::from_words(&mut words);
    #[expect(unused_must_use)]
    hub.reset(&mut region, &mut table, ZERO);
    #[expect(unused_must_use)]
    hub.is_sound();
    #[expect(unused_must_use)]
    Trap::new(hub, Region::from_slice(&mut region), &mut table, ZERO, Space::Registers).write(0, &[]);
}

/// Hubs and regions go to other threads, and are shared between them: what changes them takes them exclusively.
const _: () = {
    const fn sent_and_shared<T: Send + Sync>() {}
    sent_and_shared::<Hub<'_>>();
    sent_and_shared::<Region<'_>>();
    sent_and_shared::<Trap<'_>>();
};

#[test]
fn totals() {
    assert_eq!(SETTINGS.total(), Some(4096 + 8192 + 3 * 4096));
    assert_eq!(Settings { output: 1 << 63, ..SETTINGS }.total(), None);
    assert_eq!(Settings { read_write: u64::MAX, ..SETTINGS }.total(), None);
}

#[test]
fn numbers_of_words() {
    assert_eq!(hub_words(4, 4), 10 + 8 * 4 + 4 * 4 * 4);
    assert_eq!(hub_words(0, usize::MAX), 10);
    for most in [(usize::MAX, 0), (usize::MAX, usize::MAX), (1 << 32, 1 << 32)] {
        assert_eq!(hub_words(most.0, most.1), usize::MAX);
    }
    let words = |peers, vectors| Settings { peers, vectors, ..SETTINGS }.hub_words();
    assert_eq!(SETTINGS.hub_words(), Some(WORDS));
    assert_eq!(words(64, 16), Some(MAX_HUB_WORDS));
    for (peers, vectors) in [(65, 1), (2, 17), (u64::MAX, 0), (0, u64::MAX)] {
        assert_eq!(words(peers, vectors), None);
    }
}

#[test]
fn set_up_refused() {
    let mut region = vec![0xee; SETTINGS.total().unwrap()];
    let (whole, few) = (region.len(), Settings { peers: 1, ..SETTINGS });
    for (words, settings, bytes, refusal) in [
        (WORDS, few, whole, Refusal::BadSetting),
        (WORDS - 1, few, whole, Refusal::BadSetting),
        (0, few, 0, Refusal::BadSetting),
        (WORDS - 1, SETTINGS, whole, Refusal::UnsoundHub),
        (WORDS + 1, SETTINGS, whole - 1, Refusal::UnsoundHub),
        (MAX_HUB_WORDS, SETTINGS, whole, Refusal::UnsoundHub),
        (0, SETTINGS, 0, Refusal::UnsoundHub),
        (WORDS, SETTINGS, whole - 1, Refusal::BadRegion),
    ] {
        let mut lent = vec![7; words];
        assert_eq!(Hub::set_up(&mut lent, &settings, &mut region[..bytes]).unwrap_err(), refusal);
        assert_eq!(lent, vec![0; words]);
        assert!(region.iter().all(|&byte| byte == 0xee));
    }
}

/// The crate's sizes are the library's: a hub of each size has just so many words, the most is taken, one more is not.
#[test]
fn sizes() {
    let sized = |peers: usize, vectors: usize| Settings {
        peers: peers as u64,
        vectors: vectors as u64,
        read_write: 0,
        output: 0,
        ..SETTINGS
    };
    let mut region = [0; 4096];
    for (peers, vectors) in (0..=MAX_PEERS + 1).flat_map(|peers| (0..=MAX_VECTORS + 1).map(move |v| (peers, v))) {
        let right = hub_words(peers, vectors);
        let taken = (2..=MAX_PEERS).contains(&peers) && (1..=MAX_VECTORS).contains(&vectors);
        for (words, number) in [(right - 1, 10), (right + 1, 10), (right, 0)] {
            let reply = raw::set_up(&mut vec![7; words], &mut region, &sized(peers, vectors));
            assert_eq!(reply.number, if taken { number } else { 1 }, "{peers} by {vectors}, {words} words");
        }
    }
}

/// The lowest base is the library's.
#[test]
fn bases() {
    let mut region = vec![0; SETTINGS.total().unwrap()];
    let last = u64::MAX - region.len() as u64 + 1;
    for (base, number) in [
        (0, 1),
        (MIN_BASE - 4096, 1),
        (MIN_BASE - 1, 1),
        (MIN_BASE, 0),
        (MIN_BASE + 4096, 0),
        (last, 0),
        (last + 4096, 1),
    ] {
        let reply = raw::set_up(&mut ANY.clone(), &mut region, &Settings { base, ..SETTINGS });
        assert_eq!(reply.number, number, "base {base:#x}");
    }
}

#[test]
fn default_settings_are_taken() {
    let settings = Settings::default();
    let mut words = vec![7; settings.hub_words().unwrap()];
    let mut region = vec![7; settings.total().unwrap()];
    assert!(Hub::set_up(&mut words, &settings, &mut region).is_ok());
}

#[test]
fn configuration() {
    let mut words = ANY;
    let mut host = Host::new(&mut words);
    assert_eq!(host.hub.configuration_read(ONE, 0x00, 4), Ok(0x4106_110a));
    assert_eq!(host.hub.configuration_read(ONE, 0x09, 1), Ok(0x34));
    assert_eq!(host.hub.configuration_read(ONE, 0x5c, 4), Ok(8));
    assert_eq!(host.hub.configuration_write(ONE, 0x10, 4, 0xffff_ffff), Ok(()));
    assert_eq!(host.hub.configuration_read(ONE, 0x10, 4), Ok(0xffff_f000));
    assert_eq!(host.hub.configuration_read(ZERO, 0x10, 4), Ok(0));
    assert_eq!(host.hub.configuration_read(ONE, 0, 3), Err(Refusal::BadWidth));
    assert_eq!(host.hub.configuration_read(ONE, 1, 2), Err(Refusal::Misaligned));
    assert_eq!(host.hub.configuration_read(ONE, CONFIGURATION_BYTES, 4), Err(Refusal::OutOfRange));
    assert_eq!(host.hub.configuration_write(PeerId(2), 0x10, 4, 0), Err(Refusal::NotConnected));
    assert_eq!(host.hub.configuration_write(PeerId(3), 0x10, 4, 0), Err(Refusal::NoSuchPeer));
}

/// The number of an access: by the hub and the id, then by offset and width alone.
#[test]
fn configuration_numbers() {
    let mut words = ANY;
    let mut host = Host::new(&mut words);
    let mut other = ANY;
    let mut unsound = Hub::from_words(&mut other);
    let near_the_end = u64::MAX - 8..=u64::MAX;
    for offset in (0..=CONFIGURATION_BYTES + 8).chain(near_the_end) {
        for width in (0..=9).chain([16, 256, 1 << 32, u64::MAX]) {
            let expected = if ![1, 2, 4].contains(&width) {
                Err(Refusal::BadWidth)
            } else if offset % width != 0 {
                Err(Refusal::Misaligned)
            } else if offset > CONFIGURATION_BYTES - width {
                Err(Refusal::OutOfRange)
            } else {
                Ok(())
            };
            let numbers = |hub: &mut Hub<'_>, peer| {
                let read = hub.configuration_read(peer, offset, width).map(|_| ());
                (read, hub.configuration_write(peer, offset, width, 0))
            };
            assert_eq!(numbers(&mut host.hub, ONE), (expected, expected), "{width} bytes at {offset:x}");
            for (peer, refusal) in [(PeerId(2), Refusal::NotConnected), (PeerId(3), Refusal::NoSuchPeer)] {
                assert_eq!(numbers(&mut host.hub, peer), (Err(refusal), Err(refusal)));
            }
            assert_eq!(numbers(&mut unsound, ONE), (Err(Refusal::UnsoundHub), Err(Refusal::UnsoundHub)));
        }
    }
}

/// An access that is not refused with 7 is the accesses of one byte at its offsets, lowest first, refused or not.
#[test]
fn configuration_split() {
    let (ones, mixed, zeros) = (u32::MAX, 0x8142_e35c, 0);
    for (peer, before, value) in [
        (ONE, zeros, ones),
        (ONE, ones, zeros),
        (ONE, ones, mixed),
        (ONE, mixed, !mixed),
        (PeerId(2), zeros, ones),
        (PeerId(3), zeros, ones),
    ] {
        let mut words = ANY;
        let mut host = Host::new(&mut words);
        for offset in (0..CONFIGURATION_BYTES).step_by(4) {
            host.hub.configuration_write(ONE, offset, 4, before).unwrap();
        }
        for (offset, width) in (0..CONFIGURATION_BYTES + 8).flat_map(|offset| [1, 2, 4].map(|width| (offset, width))) {
            splits(host.hub.words(), peer, offset, width, value);
        }
    }
    splits(&ANY, ONE, 0x04, 4, ones);
}

/// An access of 4 bytes is its two halves too, the lower first, refused or not.
#[test]
fn configuration_halves() {
    let mut words = ANY;
    let mut host = Host::new(&mut words);
    for (offset, value) in (0..CONFIGURATION_BYTES + 8).step_by(4).flat_map(|at| [(at, u32::MAX), (at, 0x8142_e35c)]) {
        for peer in [ONE, PeerId(2), PeerId(3)] {
            let mut copy = host.hub.words().to_vec();
            let mut halves = Hub::from_words(&mut copy);
            let written = host.hub.configuration_write(peer, offset, 4, value);
            assert_eq!(halves.configuration_write(peer, offset, 2, value & 0xffff), written);
            assert_eq!(halves.configuration_write(peer, offset + 2, 2, value >> 16), written);
            assert_eq!(host.hub, halves, "{value:x} at {offset:x}");
            let low = halves.configuration_read(peer, offset, 2);
            let high = halves.configuration_read(peer, offset + 2, 2);
            assert_eq!(low.and_then(|low| Ok(low | high? << 16)), host.hub.configuration_read(peer, offset, 4));
            assert_eq!(low.err(), high.err());
        }
    }
}

fn splits(words: &[u32], peer: PeerId, offset: u64, width: u64, value: u32) {
    let (mut one, mut other) = (words.to_vec(), words.to_vec());
    let (mut whole, mut split) = (Hub::from_words(&mut one), Hub::from_words(&mut other));
    let read = whole.configuration_read(peer, offset, width);
    let written = whole.configuration_write(peer, offset, width, value);
    let places = || (0..width).map(|j| (offset + j, 8 * j));
    let bytes: Vec<_> = places().map(|(at, _)| split.configuration_read(peer, at, 1)).collect();
    if peer == ONE && !offset.is_multiple_of(width) {
        assert_eq!((read, written), (Err(Refusal::Misaligned), Err(Refusal::Misaligned)));
        assert!(offset + width > CONFIGURATION_BYTES || bytes.iter().all(Result::is_ok));
        return;
    }
    match read {
        Ok(value) => {
            assert_eq!(bytes, places().map(|(_, shift)| Ok(value >> shift & 0xff)).collect::<Vec<_>>());
            assert_eq!(u64::from(value) >> (8 * width), 0);
        }
        Err(_) => assert_eq!(bytes, vec![read; width as usize]),
    }
    let bytes_written: Vec<_> =
        places().map(|(at, shift)| split.configuration_write(peer, at, 1, value >> shift & 0xff)).collect();
    assert_eq!(bytes_written, vec![written; width as usize]);
    assert_eq!(whole, split, "{value:x} of {width} bytes at {offset:x}");
}

#[test]
fn registers_and_entries() {
    let mut words = ANY;
    let mut host = Host::new(&mut words);
    assert_eq!(host.hub.register_read(ONE, register::ID, 4), Ok(0xffff_ffff));
    assert_eq!(host.hub.msix_read(ONE, msix::CONTROL, 4), Ok(0xffff_ffff));
    host.switch_on(ONE, 0x41);
    assert_eq!(host.hub.register_read(ONE, register::ID, 4), Ok(1));
    assert_eq!(host.hub.register_read(ONE, register::MAXIMUM_PEERS, 4), Ok(3));
    assert_eq!(host.hub.register_read(ONE, register::DOORBELL, 4), Ok(0));
    assert_eq!(host.write(ONE, register::STATE, 0x0102_0304), Ok(&[][..]));
    assert_eq!(host.hub.register_read(ONE, register::STATE, 4), Ok(0x0102_0304));
    assert_eq!(host.region[4..8], [4, 3, 2, 1]);
    assert_eq!(host.hub.msix_read(ONE, msix::DATA, 4), Ok(0x41));
    assert_eq!(host.hub.msix_read(ONE, 16 + msix::CONTROL, 4), Ok(1));
    assert_eq!(host.hub.register_read(ONE, REGISTER_BYTES, 4), Err(Refusal::OutOfRange));
    assert_eq!(host.hub.msix_write(ONE, MSIX_BYTES, 4, 0), Err(Refusal::OutOfRange));
    assert_eq!(host.hub.msix_read(ONE, 0, 2), Err(Refusal::BadWidth));
}

#[test]
fn deliveries() {
    let mut words = ANY;
    let mut host = Host::new(&mut words);
    host.switch_on(ZERO, 0x40);
    host.switch_on(ONE, 0x41);
    let ring = register::doorbell(ONE, Vector(0));
    assert_eq!(ring, 0x0001_0000);
    assert_eq!(host.write(ZERO, register::DOORBELL, ring), Ok(&[delivery(ONE, 0x41)][..]));
    assert_eq!(host.write(ZERO, register::STATE, 9), Ok(&[delivery(ONE, 0x41)][..]));
    assert_eq!(host.write(ZERO, register::STATE, 9), Ok(&[][..]));

    let table = &mut host.table[..];
    assert_eq!(host.hub.reset(&mut host.region, table, ZERO), Ok(&[delivery(ONE, 0x41)][..]));
    assert_eq!(host.hub.register_read(ZERO, register::STATE, 4), Ok(0xffff_ffff));
    assert_eq!(host.region[..4], [0; 4]);
    host.switch_on(ZERO, 0x40);
    assert_eq!(host.write(ONE, register::STATE, 7), Ok(&[delivery(ZERO, 0x40)][..]));
    let table = &mut host.table[..];
    assert_eq!(host.hub.disconnect(&mut host.region, table, ONE), Ok(&[delivery(ZERO, 0x40)][..]));
    assert_eq!(host.hub.connect(ZERO), Err(Refusal::Connected));
    assert_eq!(host.hub.connect(ONE), Ok(()));
    let table = &mut host.table[..];
    assert_eq!(host.hub.reset(&mut host.region, table, ONE), Ok(&[][..]));
    let table = &mut host.table[..];
    assert_eq!(host.hub.disconnect(&mut host.region, table, ONE), Ok(&[][..]));
}

#[test]
fn lent_memory_refused() {
    let mut words = ANY;
    let mut host = Host::new(&mut words);
    let (region, table) = (&mut host.region[..], &mut host.table[..]);
    assert_eq!(host.hub.reset(&mut region[1..], table, ZERO), Err(Refusal::BadRegion));
    assert_eq!(host.hub.reset(region, &mut table[..2], ZERO), Err(Refusal::ShortTable));
    assert_eq!(host.hub.disconnect(region, table, PeerId(2)), Err(Refusal::NotConnected));
    assert_eq!(host.hub.disconnect(region, table, PeerId(u16::MAX)), Err(Refusal::NoSuchPeer));
    assert_eq!(host.hub.register_write(region, table, ZERO, 2, 4, 0), Err(Refusal::Misaligned));
}

#[test]
fn shared_bytes() {
    let mut words = ANY;
    let mut host = Host::new(&mut words);
    let (region, hub) = (&mut host.region[..], &host.hub);
    let own = 4096 + 8192;
    for (offset, section, may_store) in [
        (0, Section::StateTable, false),
        (4096, Section::ReadWrite, true),
        (own, Section::Output(ZERO), true),
        (own + 4096, Section::Output(ONE), false),
    ] {
        assert_eq!(hub.section_question(ZERO, offset, 4096), Ok(Placement { section, may_store }));
        let stored = if may_store { Ok(()) } else { Err(Refusal::ReadOnly) };
        assert_eq!(hub.store(region, ZERO, offset + 1, b"abc"), stored);
        let mut buffer = [0xee; 5];
        assert_eq!(hub.load(region, ONE, offset, &mut buffer), Ok(()));
        assert_eq!(buffer, if may_store { *b"\0abc\0" } else { [0; 5] });
    }
    assert_eq!(hub.section_question(ZERO, 4095, 2), Err(Refusal::OutOfRange));
    assert_eq!(hub.section_question(ZERO, 0, 0), Err(Refusal::BadWidth));
    assert_eq!(hub.load(region, ZERO, 0, &mut []), Err(Refusal::BadWidth));
    let mut buffer = [0xee; 2];
    assert_eq!(hub.load(region, ZERO, 4095, &mut buffer), Err(Refusal::OutOfRange));
    assert_eq!(hub.load(&region[1..], ZERO, 0, &mut buffer), Err(Refusal::BadRegion));
    assert_eq!(buffer, [0xee; 2]);
    assert_eq!(hub.store(&mut region[1..], ZERO, 4096, b"x"), Err(Refusal::BadRegion));
}

#[test]
fn saved_and_restored() {
    let mut words = ANY;
    let mut host = Host::new(&mut words);
    host.switch_on(ONE, 0x41);
    let mut saved = host.hub.words().to_vec();
    let mut restored = Hub::from_words(&mut saved);
    assert_eq!(restored, host.hub);
    assert_eq!(restored.msix_read(ONE, msix::DATA, 4), Ok(0x41));
    assert_eq!(restored.connect(PeerId(2)), Ok(()));
    assert_ne!(restored, host.hub);

    // The words are where they were, and another hub takes them up.
    assert_eq!(Hub::from_words(&mut saved).connect(PeerId(2)), Err(Refusal::Connected));
    assert_eq!(Hub::from_words(&mut words).msix_read(ONE, msix::DATA, 4), Ok(0x41));
}

#[test]
fn any_words_adopted() {
    for length in [0, 1, 2, 10, WORDS, MAX_HUB_WORDS] {
        let mut words = vec![0; length];
        let mut nothing = Hub::from_words(&mut words);
        assert_eq!(nothing.connect(ZERO), Err(Refusal::UnsoundHub));
        assert_eq!(nothing.section_question(ZERO, 0, 1), Err(Refusal::UnsoundHub));
        assert_eq!(nothing.words(), vec![0; length]);
    }
    let mut words = ANY;
    Host::new(&mut words);
    let longer = [&words[..], &[0]].concat();
    for (length, refusal) in
        [(WORDS, Refusal::Connected), (WORDS - 1, Refusal::UnsoundHub), (WORDS + 1, Refusal::UnsoundHub)]
    {
        assert_eq!(Hub::from_words(&mut longer[..length].to_vec()).connect(ZERO), Err(refusal));
    }
}

#[test]
fn raw_calls_take_any_length() {
    let mut words = ANY;
    let mut host = Host::new(&mut words);
    for length in [0, 1, 2, 10, WORDS, MAX_HUB_WORDS] {
        let mut words = vec![7; length];
        assert_eq!(raw::connect(&mut words, 0).number, 10);
        assert_eq!(raw::disconnect(&mut words, &mut [], &mut [], 0).reply.number, 10);
        assert_eq!(
            raw::section_question(&words, 0, 0, 1),
            raw::SectionReply { reply: refused(10), ..Default::default() }
        );
        assert_eq!(words, vec![7; length]);
    }
    let mut words = host.hub.words().to_vec();
    assert_eq!(raw::reset(&mut words, &mut [], &mut [], 0).reply, refused(2));
    assert_eq!(raw::reset(&mut words, &mut host.region, &mut [], 0).reply, refused(11));
    assert_eq!(raw::reset(&mut words, &mut host.region, &mut host.table, 1 << 16).reply, refused(3));
    assert_eq!(raw::load(&words, &[], 0, 0, &mut []), refused(2));
    assert_eq!(words, host.hub.words());
}

fn refused(number: u32) -> Reply {
    Reply { number, value: 0 }
}

#[test]
fn printed() {
    assert_eq!(format!("{ONE} {}", Vector(3)), "1 3");
    assert_eq!(format!("{:?}", Hub::from_words(&mut [0; 10])), "Hub { .. }");
}
