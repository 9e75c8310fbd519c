//! Any memory as hub: the library answers 10 or what the model answers, and never does anything else.

use std::io::Write;

use ivshmem::{MAX_HUB_WORDS, Settings};
use model::call::{Call, Event, KINDS, Lengths};
use model::compare::{Pair, replay};
use model::count::{Counts, ON_BASES, ON_LARGE_HUBS, ON_WRONG_WORDS};
use model::generate::{Generator, good_settings, large_settings};
use model::hub::{Entry, Hub, MAX_PEERS, MAX_VECTORS, MIN_BASE, Numbers, Peer};
use model::layout::{BASE_WORDS, decode, encode, hub_words};
use model::random::Random;
use model::subject::Library;

const HUBS: u64 = 1_200_000;
const CALLS_ON_EACH: u64 = 2;

/// How much of a hub is not what a sound hub could hold.
#[derive(Clone, Copy)]
struct Dirt {
    part: u64,
    whole: u64,
}

const CLEAN: Dirt = Dirt { part: 0, whole: 1 };

/// A word with only these bits, or any word at all.
fn word(random: &mut Random, bits: u32, dirt: Dirt) -> u32 {
    if dirt.part > 0 && random.chance(dirt.part, dirt.whole) {
        let (any, bit) = (random.word(), 1 << random.below(32));
        return random.pick(&[any, any & 0xff, bit, u32::MAX]);
    }
    let any = random.word();
    random.pick(&[any, any, 0, u32::MAX]) & bits
}

fn peer(random: &mut Random, dirt: Dirt) -> Peer {
    Peer {
        connected: 1,
        command: word(random, 0x0406, dirt),
        bar0: word(random, 0xffff_f000, dirt),
        bar1: word(random, 0xffff_f000, dirt),
        privileged: word(random, 1, dirt),
        message: word(random, 0xc0, dirt),
        interrupt: word(random, 1, dirt),
        state: word(random, u32::MAX, dirt),
    }
}

fn entry(random: &mut Random, dirt: Dirt) -> Entry {
    Entry {
        low: word(random, !3, dirt),
        high: word(random, u32::MAX, dirt),
        data: word(random, u32::MAX, dirt),
        control: word(random, 1, dirt),
    }
}

/// Good settings, some with sections near the largest.
fn plausible(random: &mut Random) -> Settings {
    if random.chance(1, 16) { large_settings(random) } else { good_settings(random) }
}

/// A hub with these settings and random registers.
fn registered(random: &mut Random, settings: &Settings, dirt: Dirt) -> Hub {
    let mut hub = Hub::fresh(Numbers::from(settings));
    for id in 0..settings.peers {
        let joined = !random.chance(1, 4);
        if joined || random.chance(dirt.part, dirt.whole) {
            hub.peers[id as usize] = Peer { connected: joined.into(), ..peer(random, dirt) };
            hub.entries_mut(id).fill_with(|| entry(random, dirt));
        }
    }
    hub
}

/// Words that are handed in, the settings whose region is lent beside them, and the hub that a caller takes them for.
struct Handed {
    words: Vec<u32>,
    settings: Settings,
    taken_for: Hub,
}

/// A sound hub, its words and all.
fn sound(random: &mut Random) -> Handed {
    let settings = plausible(random);
    let taken_for = registered(random, &settings, CLEAN);
    assert!(taken_for.sound());
    Handed { words: encode(&taken_for), settings, taken_for }
}

/// A sound hub, with a base below the lowest or with a few bits turned over.
fn damaged(random: &mut Random) -> Handed {
    let mut handed = sound(random);
    if random.chance(1, 8) {
        let base = random.pick(&[0, MIN_BASE as u32 - 4096]);
        (handed.words[BASE_WORDS[0]], handed.words[BASE_WORDS[1]]) = (base, 0);
        return handed;
    }
    let (peers, all) = (10 + 8 * handed.settings.peers, handed.words.len() as u64);
    for _ in 0..random.pick(&[1, 1, 1, 2, 3]) {
        // Settings and switches are few beside addresses and data.
        let place = random.pick(&[10, peers, all]);
        handed.words[random.below(place) as usize] ^= 1 << random.below(32);
    }
    handed
}

fn dirty(random: &mut Random) -> Handed {
    let settings = plausible(random);
    // A few words of a hub, whatever its size.
    let dirt = Dirt { part: random.pick(&[0, 1, 1, 8]), whole: settings.peers * (8 + 4 * settings.vectors) };
    let taken_for = registered(random, &settings, dirt);
    Handed { words: encode(&taken_for), settings, taken_for }
}

fn noise(random: &mut Random) -> Handed {
    let settings = good_settings(random);
    let taken_for = Hub::fresh(Numbers::from(&settings));
    let mut words = encode(&taken_for);
    // With good settings in front, it is left to the registers to be found out.
    let from = random.pick(&[0, 10]);
    let bits = random.pick(&[u32::MAX, 0xff, 0xf, 1, 0]);
    words[from..].fill_with(|| random.word() & bits);
    Handed { words, settings, taken_for }
}

/// A sound hub with words cut off its end or put behind it.
fn stretched(random: &mut Random) -> Handed {
    let mut handed = sound(random);
    let right = handed.words.len();
    let (few, fewer, more) = (random.below(11), random.below(right as u64), right as u64 + random.below(65));
    let another = hub_words(&Numbers::from(&good_settings(random))) as usize;
    let length = random.pick(&[
        right - 1,
        right - 1,
        right + 1,
        right + 1,
        few as usize,
        fewer as usize,
        more as usize,
        another,
        MAX_HUB_WORDS,
    ]);
    // What stands behind looks like nothing, like a peer at its reset values, or like anything.
    let behind = random.pick(&[0, 1, u32::MAX]);
    handed.words.resize_with(length, || random.word() & behind);
    handed
}

/// A sound hub with another word 0 or 1, or two others, now and then such as ask for the same number of words.
fn renumbered(random: &mut Random) -> Handed {
    let mut handed = sound(random);
    let (peers, vectors) = (handed.words[0], handed.words[1]);
    let mut other = |right: u32, most: usize| {
        // A length that is reckoned in 32 bits stays what it was where a multiple of 2^30 is added.
        let turned = right + (1 + random.below(3) as u32) * (1 << 30);
        let (any, huge) = (random.below(most as u64 + 2) as u32, random.word());
        random.pick(&[right - 1, right + 1, any, any, turned, turned, huge, u32::MAX])
    };
    let (other_peers, other_vectors) = (other(peers, MAX_PEERS), other(vectors, MAX_VECTORS));
    let alike = same_length(peers, vectors);
    let changed = [(other_peers, vectors), (peers, other_vectors), (other_peers, other_vectors), random.pick(&alike)];
    (handed.words[0], handed.words[1]) = random.pick(&changed);
    handed
}

/// All peers and vectors whose hubs have as many words as a hub of these.
fn same_length(peers: u32, vectors: u32) -> Vec<(u32, u32)> {
    let all = (2..=MAX_PEERS as u32).flat_map(|p| (1..=MAX_VECTORS as u32).map(move |v| (p, v)));
    all.filter(|(p, v)| p * (2 + v) == peers * (2 + vectors)).collect()
}

/// A sound hub in the place of one of another size, with the same sections but for the output sections: where there are none,
/// the region fits both.
fn another(random: &mut Random) -> Handed {
    let handed = sound(random);
    let Settings { peers, mut vectors, .. } = good_settings(random);
    if (peers, vectors) == (handed.settings.peers, handed.settings.vectors) {
        vectors = 1 + vectors % MAX_VECTORS as u64;
    }
    let with = |output: u64| Settings { peers, vectors, output, ..handed.settings };
    let larger = Some(with(4096)).filter(|settings| random.chance(1, 2) && Numbers::from(settings).accepted());
    let other = larger.unwrap_or(with(0));
    let settings = Settings { output: other.output, ..handed.settings };
    let taken_for = Hub { numbers: (&settings).into(), ..handed.taken_for };
    Handed { words: encode(&registered(random, &other, CLEAN)), settings, taken_for }
}

/// How many hubs of a sort there were, and how many of them sound; the same for those of the most peers and vectors.
#[derive(Default)]
struct Seen {
    hubs: u64,
    sound: u64,
    largest: u64,
    largest_sound: u64,
}

impl Seen {
    fn add(&mut self, handed: &Handed) {
        let sound = decode(&handed.words).is_some_and(|hub| hub.sound());
        let largest = (handed.settings.peers, handed.settings.vectors) == (MAX_PEERS as u64, MAX_VECTORS as u64);
        self.hubs += 1;
        self.sound += u64::from(sound);
        self.largest += u64::from(largest);
        self.largest_sound += u64::from(largest && sound);
    }
}

fn failed(before: &[u32], event: &Event, difference: &str) -> ! {
    let sound = decode(before).is_some_and(|hub| hub.sound());
    panic!("{} words {before:x?} (sound: {sound})\n{event}\nthen {difference}", before.len());
}

/// Sorts of words, each with its name.
type Sorts = [(&'static str, fn(&mut Random) -> Handed); 3];

/// Hands in words of each sort in turn, with calls of all kinds.
fn hand_in(name: &str, seed: u64, sorts: &Sorts) -> ([Seen; 3], Counts) {
    let mut random = Random::new(seed);
    let mut generator = Generator::new(seed + 1);
    let mut pair = Pair::new(Library);
    let mut counts = Counts::default();
    let mut seen: [Seen; 3] = Default::default();

    for turn in 0..HUBS {
        let sort = (turn % 3) as usize;
        let handed = sorts[sort].1(&mut random);
        seen[sort].add(&handed);
        for _ in 0..CALLS_ON_EACH {
            pair.put(&handed.words, &handed.settings);
            let kind = random.below(KINDS.len() as u64) as usize;
            let event = generator.call_of_kind(kind, &handed.taken_for, pair.world().total());
            if let Err(difference) = pair.apply(&event, &mut counts) {
                failed(&handed.words, &event, &difference);
            }
        }
    }
    report(name, sorts, &seen, &counts);
    // Every kind of call was answered on hubs that are sound and refused on those that are not.
    assert!(counts.calls.iter().all(|kind| kind[0] >= 1_000 && kind[10] >= 1_000));
    assert!(counts.delivered >= 1_000);
    // The host's questions had every answer that they can have.
    assert!(counts.questions.iter().all(|&asked| asked >= 20_000));
    (seen, counts)
}

#[test]
fn any_memory_as_hub() {
    let sorts: Sorts = [
        ("sound but for a few bits or the base", damaged),
        ("plausible settings, random registers", dirty),
        ("noise", noise),
    ];
    let (seen, counts) = hand_in("any memory as hub", 31, &sorts);
    for seen in &seen[..2] {
        assert!(seen.sound >= 10_000 && seen.hubs - seen.sound >= 10_000);
        assert!(seen.largest_sound >= 1_000 && seen.largest - seen.largest_sound >= 1_000);
    }
    assert!(counts.sizes[..ON_LARGE_HUBS].iter().all(|&calls| calls >= 10_000));
    assert!(counts.bases[..ON_BASES].iter().all(|&calls| calls >= 10_000));
}

#[test]
fn words_of_another_number() {
    let sorts: Sorts = [
        ("sound but for words cut off or put behind", stretched),
        ("sound but for word 0 or word 1", renumbered),
        ("a sound hub of another size", another),
    ];
    let ([stretched, renumbered, another], counts) = hand_in("words of another number", 34, &sorts);
    for seen in [stretched, renumbered] {
        assert!(seen.hubs - seen.sound >= 300_000);
        assert!(seen.largest - seen.largest_sound >= 10_000);
    }
    assert!(another.sound >= 300_000);
    // Every call but set-up was made by or on peers that the hub in place does not have.
    assert!(counts.calls[1..].iter().all(|kind| kind[3] >= 5_000));
    let (calls, set_ups) = counts.words.split_at(ON_WRONG_WORDS);
    assert!(calls.iter().all(|&calls| calls >= 10_000));
    assert!(set_ups.iter().all(|&set_ups| set_ups >= 1_000));
}

/// Printed past the test's capture, so that every run shows it.
fn report(name: &str, sorts: &Sorts, seen: &[Seen], counts: &Counts) {
    let mut text = format!("{name}\n");
    for ((name, _), Seen { hubs, sound, largest, largest_sound }) in sorts.iter().zip(seen) {
        let largest_unsound = largest - largest_sound;
        text += &format!("{name}: {hubs} hubs, {sound} sound, {} not; ", hubs - sound);
        text += &format!("of the most peers and vectors {largest_sound} sound, {largest_unsound} not\n");
    }
    let _ = writeln!(std::io::stdout().lock(), "{text}{counts}");
}

/// One bit at a time, in every word of a hub that has everything on: found out by a read, or sound by the model's word.
#[test]
fn every_single_bit() {
    let mut random = Random::new(33);
    let most =
        Settings { peers: MAX_PEERS as u64, vectors: MAX_VECTORS as u64, state_table: 4096, ..Settings::default() };
    for turn in 0..16 {
        let settings = if turn == 0 { most } else { plausible(&mut random) };
        let hub = registered(&mut random, &settings, CLEAN);
        assert!(hub.sound());
        let mut pair = Pair::new(Library);
        let mut words = encode(&hub);
        for bit in 0..words.len() * 32 {
            words[bit / 32] ^= 1 << (bit % 32);
            pair.put(&words, &settings);
            let read = Call::ConfigurationRead { id: 0, offset: 0, width: 4 }.into();
            if let Err(difference) = pair.apply(&read, &mut Counts::default()) {
                failed(&words, &read, &difference);
            }
            words[bit / 32] ^= 1 << (bit % 32);
        }
    }
}

/// Every number of words, up to some more than the largest hub has: of a hub that is read, and of a set-up.
#[test]
fn every_number_of_words() {
    let mut random = Random::new(36);
    for _ in 0..16 {
        let settings = good_settings(&mut random);
        let right = hub_words(&Numbers::from(&settings)) as usize;
        let hub = Hub { peers: vec![Peer::FRESH; settings.peers as usize], ..Hub::fresh((&settings).into()) };
        let read = Call::ConfigurationRead { id: 0, offset: 0, width: 4 };
        for call in [read, Call::SetUp(settings)] {
            let mut pair = Pair::new(Library);
            for length in 0..MAX_HUB_WORDS + 64 {
                let lengths = Lengths { words: length as i64 - right as i64, ..Lengths::USUAL };
                let event = Event::Call(call.clone(), lengths);
                pair.put(&encode(&hub), &settings);
                match pair.apply(&event, &mut Counts::default()) {
                    Ok(answer) => assert_eq!(answer.map(|answer| answer.number == 0), Some(length == right), "{event}"),
                    Err(difference) => failed(pair.world().hub_words(), &event, &difference),
                }
            }
        }
    }
}

/// The harness itself starts from words that are no hub.
#[test]
fn nothing_set_up() {
    let events: Vec<Event> = vec![Call::Connect { id: 0 }.into()];
    assert_eq!(replay(Library, &events), None);
}
