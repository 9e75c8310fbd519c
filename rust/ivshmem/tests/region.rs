//! The region as a raw pointer: the same answers as over a slice, the bytes that a call touches, and a region that others change.

use std::sync::atomic::{AtomicBool, AtomicU8, AtomicU32, Ordering};
use std::thread;
use std::time::{Duration, Instant};

use ivshmem::raw::{self, Counted, Reply};
use ivshmem::{Delivery, Hub, PeerId, Refusal, Region, Settings, configuration, hub_words, msix, register};

const SETTINGS: Settings = Settings {
    peers: 3,
    vectors: 1,
    state_table: 4096,
    read_write: 4096,
    output: 4096,
    base: 0x8_0000_0000,
    protocol: 1,
    subsystem_vendor: 0x110a,
    subsystem_id: 0x4106,
};
const WORDS: usize = hub_words(3, 1);
const BYTES: usize = 5 * 4096;
/// Bytes before and behind a region, which no call touches.
const AROUND: usize = 64;
const TWO: PeerId = PeerId(2);

/// A hub with all peers connected and switched on, over a region of bytes that are not 0 behind the State Table.
fn host() -> ([u32; WORDS], Vec<u8>) {
    let (mut words, mut region) = ([7; WORDS], vec![0xee; BYTES]);
    let mut hub = Hub::set_up(&mut words, &SETTINGS, &mut region).unwrap();
    for peer in (0..3).map(PeerId) {
        hub.connect(peer).unwrap();
        hub.configuration_write(peer, configuration::COMMAND, 2, 6).unwrap();
        hub.configuration_write(peer, configuration::MESSAGE_CONTROL, 2, configuration::MESSAGE_ENABLE).unwrap();
        hub.msix_write(peer, msix::DATA, 4, 0x40 + u32::from(peer.0)).unwrap();
        hub.msix_write(peer, msix::CONTROL, 4, 0).unwrap();
        hub.register_write(&mut region, &mut table(), peer, register::INTERRUPT_CONTROL, 4, 1).unwrap();
        hub.register_write(&mut region, &mut table(), peer, register::STATE, 4, 0x0101_0101).unwrap();
    }
    region[12..].fill(0x77);
    (words, region)
}

fn table() -> [Delivery; 3] {
    Default::default()
}

/// What a call answers, and what it leaves.
#[derive(Debug, PartialEq)]
struct Left {
    answer: Counted,
    words: Vec<u32>,
    region: Vec<u8>,
    table: [Delivery; 3],
    buffer: [u8; 8],
}

type Slice = fn(&mut [u32], &mut [u8], &mut [Delivery], &mut [u8]) -> Counted;
type Pointer = fn(&mut [u32], *mut [u8], &mut [Delivery], &mut [u8]) -> Counted;

fn counted(reply: Reply) -> Counted {
    Counted { reply, count: 0 }
}

/// The calls that are lent the region, accepted and refused ones, each in both forms, with the bytes that it may change.
#[rustfmt::skip]
const CALLS: [(&str, usize, usize, Slice, Pointer); 12] = [
    ("set-up", 0, BYTES,
        |words, region, _, _| counted(raw::set_up(words, region, &SETTINGS)),
        |words, region, _, _| counted(unsafe { raw::set_up_at(words, region, &SETTINGS) })),
    ("set-up, refused", 0, 0,
        |words, region, _, _| counted(raw::set_up(words, region, &Settings { peers: 1, ..SETTINGS })),
        |words, region, _, _| counted(unsafe { raw::set_up_at(words, region, &Settings { peers: 1, ..SETTINGS }) })),
    ("disconnect", 8, 4,
        |words, region, table, _| raw::disconnect(words, region, table, 2),
        |words, region, table, _| unsafe { raw::disconnect_at(words, region, table, 2) }),
    ("reset", 8, 4,
        |words, region, table, _| raw::reset(words, region, table, 2),
        |words, region, table, _| unsafe { raw::reset_at(words, region, table, 2) }),
    ("reset, refused", 0, 0,
        |words, region, table, _| raw::reset(words, region, table, 3),
        |words, region, table, _| unsafe { raw::reset_at(words, region, table, 3) }),
    ("State store", 8, 4,
        |words, region, table, _| raw::register_write(words, region, table, 2, 0x10, 4, 0xa5a5_a5a5),
        |words, region, table, _| unsafe { raw::register_write_at(words, region, table, 2, 0x10, 4, 0xa5a5_a5a5) }),
    ("doorbell", 0, 0,
        |words, region, table, _| raw::register_write(words, region, table, 2, 0x0c, 4, 0x0001_0000),
        |words, region, table, _| unsafe { raw::register_write_at(words, region, table, 2, 0x0c, 4, 0x0001_0000) }),
    ("Interrupt Control", 0, 0,
        |words, region, table, _| raw::register_write(words, region, table, 2, 0x08, 4, 0),
        |words, region, table, _| unsafe { raw::register_write_at(words, region, table, 2, 0x08, 4, 0) }),
    ("load", 0, 0,
        |words, region, _, buffer| counted(raw::load(words, region, 2, 4090, &mut buffer[..6])),
        |words, region, _, buffer| counted(unsafe { raw::load_at(words, region, 2, 4090, &mut buffer[..6]) })),
    ("load, refused", 0, 0,
        |words, region, _, buffer| counted(raw::load(words, region, 2, 4090, &mut buffer[..7])),
        |words, region, _, buffer| counted(unsafe { raw::load_at(words, region, 2, 4090, &mut buffer[..7]) })),
    ("store", 4099, 8,
        |words, region, _, buffer| counted(raw::store(words, region, 2, 4099, buffer)),
        |words, region, _, buffer| counted(unsafe { raw::store_at(words, region, 2, 4099, buffer) })),
    ("store, refused", 0, 0,
        |words, region, _, buffer| counted(raw::store(words, region, 2, 0, buffer)),
        |words, region, _, buffer| counted(unsafe { raw::store_at(words, region, 2, 0, buffer) })),
];

#[test]
fn both_forms_do_the_same() {
    for (name, start, length, slice, pointer) in CALLS {
        let (words, region) = host();
        let by = |call: &dyn Fn(&mut Left) -> Counted, region: Vec<u8>| {
            let buffer = [0xb0, 1, 2, 3, 4, 5, 6, 7];
            let mut left = Left { answer: Counted::default(), words: words.to_vec(), region, table: table(), buffer };
            left.answer = call(&mut left);
            left
        };
        let expected = by(&|l| slice(&mut l.words, &mut l.region, &mut l.table, &mut l.buffer), region.clone());
        // The pointer's region stands in the middle of other bytes.
        let inside = [&[0xaa; AROUND][..], &region, &[0xaa; AROUND]].concat();
        let mut answered = by(
            &|l| {
                let lent = &raw mut l.region[AROUND..AROUND + BYTES];
                pointer(&mut l.words, lent, &mut l.table, &mut l.buffer)
            },
            inside,
        );
        let around = answered.region.split_off(AROUND + BYTES);
        let before = answered.region.drain(..AROUND).collect::<Vec<_>>();
        assert_eq!([before, around], [[0xaa; AROUND]; 2], "{name}");
        assert!(answered == expected, "{name}: {:?} and {:?}", answered.answer, expected.answer);

        let refused = name.contains("refused");
        assert_eq!(answered.answer.reply.number != 0, refused, "{name}");
        for (at, (was, is)) in region.iter().zip(&answered.region).enumerate() {
            assert_eq!(was != is, (start..start + length).contains(&at), "{name}, byte {at}: {was:x} and {is:x}");
        }
    }
}

/// A hub over a handle does what it does over the slice.
#[test]
fn handles() {
    let (mut words, mut bytes) = ([7; WORDS], vec![0xee; BYTES]);
    let mut region = Region::from_slice(&mut bytes);
    assert_eq!((region.length(), region.reborrow().length()), (BYTES, BYTES));
    assert_eq!(format!("{region:?}"), format!("Region {{ length: {BYTES}, .. }}"));
    let mut hub = Hub::set_up_at(&mut words, &SETTINGS, &mut region).unwrap();
    hub.connect(TWO).unwrap();
    hub.configuration_write(TWO, configuration::COMMAND, 2, configuration::COMMAND_MEMORY).unwrap();
    let mut table = table();
    assert_eq!(hub.register_write_at(&mut region, &mut table, TWO, register::STATE, 4, 0x0403_0201), Ok(&[][..]));
    assert_eq!(hub.store_at(&mut region, TWO, 4096, b"hello"), Ok(()));
    assert_eq!(hub.store_at(&mut region, TWO, 8192, b"hello"), Err(Refusal::ReadOnly));
    let mut buffer = [0; 8];
    assert_eq!(hub.load_at(&region, TWO, 4094, &mut buffer), Err(Refusal::OutOfRange));
    assert_eq!(hub.load_at(&region, TWO, 4096, &mut buffer), Ok(()));
    assert_eq!(&buffer, b"hello\0\0\0");
    assert_eq!(hub.load_at(&region, TWO, 8, &mut buffer), Ok(()));
    assert_eq!(buffer, [1, 2, 3, 4, 0, 0, 0, 0]);
    assert_eq!(hub.reset_at(&mut region, &mut table[..2], TWO), Err(Refusal::ShortTable));
    assert_eq!(hub.reset_at(&mut region, &mut table, TWO), Ok(&[][..]));
    assert_eq!(hub.disconnect_at(&mut region, &mut table, TWO), Ok(&[][..]));
    assert_eq!(hub.disconnect_at(&mut region, &mut table, TWO), Err(Refusal::NotConnected));

    let few = &mut bytes[1..];
    assert_eq!(Hub::set_up_at(&mut words, &SETTINGS, &mut few.into()).unwrap_err(), Refusal::BadRegion);
    let all = Region::from_slice(&mut bytes);
    let (start, length) = (all.start(), all.length());
    // SAFETY: the bytes outlive the handle, and nobody else uses them meanwhile.
    let mut again = unsafe { Region::new(start, length) };
    let hub = Hub::set_up_at(&mut words, &SETTINGS, &mut again).unwrap();
    assert!(hub.is_sound() && bytes.iter().all(|&byte| byte == 0));
}

/// While a guest changes the read/write section, everything else is as without it, and the guest sees whole State values.
#[test]
fn a_guest_runs_meanwhile() {
    let mapping: &'static mut [u32] = vec![0; BYTES / 4].leak();
    let start = mapping.as_mut_ptr().cast::<u8>();
    // SAFETY: the memory is never given back, and from here on only atomics and the region reach it.
    let (entry, byte, mut region) = unsafe {
        (AtomicU32::from_ptr(start.add(8).cast()), AtomicU8::from_ptr(start.add(4096)), Region::new(start, BYTES))
    };
    let (changes, running) = (AtomicU32::new(0), AtomicBool::new(true));
    let torn = thread::scope(|scope| {
        let guest = scope.spawn(|| guest(entry, byte, &changes, &running));
        store_states(&mut region, &changes, &running);
        running.store(false, Ordering::Relaxed);
        guest.join().unwrap()
    });
    println!("a guest saw State change {} times", changes.load(Ordering::Relaxed));
    assert_eq!(torn, None);
    assert!(changes.load(Ordering::Relaxed) > 0);
}

/// How often the guest is to see State change, and how long it may take: on a busy machine it sees fewer.
const CHANGES: u32 = 200_000;
const LONGEST: Duration = Duration::from_secs(2);

/// Changes a byte and looks at the State Table entry, for as long as there are whole values in it; a torn one is answered.
fn guest(entry: &AtomicU32, byte: &AtomicU8, changes: &AtomicU32, running: &AtomicBool) -> Option<u32> {
    let mut last = 0;
    // Not much longer than the other side, where that has failed.
    let start = Instant::now();
    while running.load(Ordering::Relaxed) && start.elapsed() < 2 * LONGEST {
        byte.fetch_add(1, Ordering::Relaxed);
        for state in (0..100).map(|_| entry.load(Ordering::Relaxed)) {
            if state != 0 && state != u32::MAX {
                running.store(false, Ordering::Relaxed);
                return Some(state);
            }
            if state != last {
                changes.fetch_add(1, Ordering::Relaxed);
            }
            last = state;
        }
    }
    None
}

/// Stores State and shared bytes until the guest has seen enough, or the time is over.
fn store_states(region: &mut Region<'_>, changes: &AtomicU32, running: &AtomicBool) {
    let (mut words, mut table, mut buffer) = ([0; WORDS], table(), [0; 8]);
    let mut hub = Hub::set_up_at(&mut words, &SETTINGS, region).unwrap();
    hub.connect(TWO).unwrap();
    hub.configuration_write(TWO, configuration::COMMAND, 2, configuration::COMMAND_MEMORY).unwrap();
    let start = Instant::now();
    for round in 0..u32::MAX {
        let state = if round % 2 == 0 { u32::MAX } else { 0 };
        assert_eq!(hub.register_write_at(region, &mut table, TWO, register::STATE, 4, state), Ok(&[][..]));
        assert_eq!(hub.store_at(region, TWO, 4097, &round.to_le_bytes()), Ok(()));
        assert_eq!(hub.load_at(region, TWO, 4096, &mut buffer), Ok(()));
        assert_eq!(buffer[1..5], round.to_le_bytes());
        let enough = changes.load(Ordering::Relaxed) >= CHANGES || start.elapsed() >= LONGEST;
        if enough || !running.load(Ordering::Relaxed) {
            return;
        }
    }
}
