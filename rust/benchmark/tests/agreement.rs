//! The yardsticks answer as the model does, everything compared after every call: in random histories, and on a hub of every
//! size.

use benchmark::device::{Compared, Device};
use benchmark::yardstick::{PlainStruct, WordsAccumulating, WordsEarlyExit, WordsSpecialised};
use ivshmem::{MAX_PEERS, MAX_VECTORS, Settings};
use model::call::KINDS;
use model::compare::{self, Pair};
use model::count::Counts;
use model::generate::Generator;
use model::hub::{Entry, Hub, Peer};
use model::layout::encode;
use model::random::Random;

const CALLS: u64 = 100_000;

#[test]
fn plain_struct_agrees_with_the_model() {
    agrees::<PlainStruct>(1);
}

#[test]
fn words_with_early_exit_agree_with_the_model() {
    agrees::<WordsEarlyExit>(2);
}

#[test]
fn accumulating_words_agree_with_the_model() {
    agrees::<WordsAccumulating>(3);
    agrees::<WordsSpecialised>(4);
}

fn agrees<D: Device>(seed: u64) {
    if let Err(failure) = compare::run(Compared::<D>::default, seed, CALLS) {
        panic!("{failure}");
    }
    let mut counts = Counts::default();
    for peers in 2..=MAX_PEERS as u64 {
        for vectors in 1..=MAX_VECTORS as u64 {
            let settings = Settings { peers, vectors, state_table: 4096, read_write: 4096, ..Settings::default() };
            of_size::<D>(&settings, seed ^ peers << 8 ^ vectors << 16, &mut counts);
        }
    }
    let sizes = (MAX_PEERS - 1) * MAX_VECTORS;
    assert_eq!(counts.hubs.len(), sizes);
    // Every kind of call was taken, and refused with 10, at many sizes.
    assert!(counts.calls.iter().all(|kind| kind[0] >= sizes as u64 / 8 && kind[10] >= sizes as u64 / 8));
}

/// Every call twice on a hub of this size with any registers, as it is and with a bit turned over.
fn of_size<D: Device>(settings: &Settings, seed: u64, counts: &mut Counts) {
    let mut random = Random::new(seed);
    let mut generator = Generator::new(seed);
    let mut pair = Pair::new(Compared::<D>::default());
    let hub = registered(&mut random, settings);
    let mut words = encode(&hub);
    let (at, bit) = (random.below(words.len() as u64) as usize, 1 << random.below(32));
    for damage in [0, bit] {
        words[at] ^= damage;
        for kind in (0..KINDS.len()).chain(0..KINDS.len()) {
            pair.put(&words, settings);
            let event = generator.call_of_kind(kind, &hub, pair.world().total());
            if let Err(difference) = pair.apply(&event, counts) {
                panic!("{settings:?}, bits {damage:#x} of word {at} turned over, {event}: {difference}");
            }
        }
    }
}

/// A sound hub with three of four peers connected.
fn registered(random: &mut Random, settings: &Settings) -> Hub {
    let mut hub = Hub::fresh(settings.into());
    for id in 0..settings.peers {
        if random.chance(1, 4) {
            continue;
        }
        hub.peers[id as usize] = Peer {
            connected: 1,
            command: random.pick(&[0, 2, 6, 6, 6, 0x406]),
            bar0: random.word() & 0xffff_f000,
            bar1: random.word() & 0xffff_f000,
            privileged: random.pick(&[0, 1]),
            message: random.pick(&[0x80, 0x80, 0x80, 0xc0, 0]),
            interrupt: random.pick(&[0, 1, 1]),
            state: random.word(),
        };
        hub.entries_mut(id).fill_with(|| Entry {
            low: random.word() & !3,
            high: random.word(),
            data: random.word(),
            control: random.pick(&[0, 0, 1]),
        });
    }
    assert!(hub.sound());
    hub
}
