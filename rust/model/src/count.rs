//! What a run has covered, as a table, and the least that it must have covered.

use std::collections::BTreeSet;
use std::fmt;

use ivshmem::{MAX_HUB_WORDS, Settings, register};

use crate::call::{Call, KINDS};
use crate::generate::{FEW_PEERS, FEW_VECTORS};
use crate::hub::{Block, MAX_PEERS, MAX_VECTORS, MIN_BASE, Numbers, Ring};
use crate::subject::{Answer, Asked, Handed, Model};

/// The numbers that each kind of call can answer, in the order of [`KINDS`].
pub const POSSIBLE: [&[u32]; 13] = [
    &[0, 1, 2, 10],
    &[0, 3, 5, 10],
    &[0, 2, 3, 4, 10, 11],
    &[0, 2, 3, 4, 10, 11],
    &[0, 3, 4, 6, 7, 8, 10],
    &[0, 3, 4, 6, 7, 8, 10],
    &[0, 3, 4, 6, 7, 8, 10],
    &[0, 2, 3, 4, 6, 7, 8, 10, 11],
    &[0, 3, 4, 6, 7, 8, 10],
    &[0, 3, 4, 6, 7, 8, 10],
    &[0, 3, 4, 6, 8, 10],
    &[0, 2, 3, 4, 6, 8, 10],
    &[0, 2, 3, 4, 6, 8, 9, 10],
];

/// The refusals that can apply beside one that is given: with these pairs the order of the checks is seen. Where 1 is given,
/// it is a set-up that is refused; where 10 is given it mostly is another call, and [`WORDS`] has the set-ups.
pub const BESIDE: [(u32, &[u32]); 8] = [
    (1, &[10, 2]),
    (10, &[2, 11, 3, 4, 5, 6, 7, 8, 9]),
    (2, &[11, 3, 4, 6, 7, 8, 9]),
    (11, &[3, 4, 6, 7, 8]),
    (3, &[6, 7, 8, 9]),
    (4, &[6, 7, 8, 9]),
    (6, &[7, 8]),
    (7, &[8]),
];

/// The reasons that a ring can be lost for alone, with their names.
pub const BLOCKS: [(Block, &str); 8] = [
    (Block::NoSuchId, "no such id"),
    (Block::NotConnected, "not connected"),
    (Block::NoSuchVector, "no such vector"),
    (Block::BusMasterOff, "Bus Master off"),
    (Block::MsixDisabled, "MSI-X disabled"),
    (Block::FunctionMasked, "function masked"),
    (Block::EntryMasked, "entry masked"),
    (Block::InterruptControlOff, "Interrupt Control 0"),
];

const PEERS: u64 = MAX_PEERS as u64;
const LAST_PEER: u64 = PEERS - 1;
const TOO_MANY_PEERS: u64 = PEERS + 1;
const VECTORS: u64 = MAX_VECTORS as u64;
const LAST_VECTOR: u64 = VECTORS - 1;
const TOO_MANY_VECTORS: u64 = VECTORS + 1;
// The names below have these numbers in them.
const _: () = assert!(FEW_PEERS == 8 && PEERS == 64 && FEW_VECTORS == 4 && VECTORS == 16 && MIN_BASE == 0x10_0000);

/// What is counted of the sizes, and how often it must be seen in a million calls of random histories.
pub const SIZES: [(&str, u64); 20] = [
    ("calls taken on hubs of more than 8 peers", 300_000),
    ("calls taken on hubs of 64 peers", 150_000),
    ("calls taken on hubs of more than 4 vectors", 200_000),
    ("calls taken on hubs of 16 vectors", 100_000),
    ("calls taken on hubs of 64 peers and 16 vectors", 30_000),
    ("State stores delivered to 63 others", 25),
    ("resets delivered to 63 others", 25),
    ("disconnects delivered to 63 others", 25),
    ("all others delivered on a table of N records, N above 8", 100),
    ("tables of N - 1 records refused with 11, N above 8", 1_000),
    ("calls by or on id 63 taken", 3_000),
    ("calls by or on id 64 of 64 refused with 3", 300),
    ("doorbells at id 63 delivered", 50),
    ("doorbells lost because id 64 is beyond the last of 64", 100),
    ("doorbells of vector 15 delivered", 500),
    ("doorbells lost because vector 16 is beyond the last of 16", 100),
    ("stores to the output section of peer 63 taken", 15),
    ("set-ups of 64 peers with 16 vectors taken", 50),
    ("set-ups of 65 peers refused with 1", 50),
    ("set-ups of 17 vectors refused with 1", 50),
];
/// How many of [`SIZES`], from the first on, are calls on large hubs.
pub const ON_LARGE_HUBS: usize = 5;

/// What is counted of the calls that store State, and how often it must be seen in a million calls of random histories.
pub const STATES: [(&str, u64); 15] = [
    ("State stores that change State", 5_000),
    ("State stores that do not", 3_000),
    ("resets that change State", 700),
    ("resets that do not", 1_000),
    ("disconnects that change State", 700),
    ("disconnects that do not", 1_000),
    ("changed State stores that are delivered", 4_000),
    ("unchanged State stores where a ring would be delivered", 2_000),
    ("changed resets that are delivered", 400),
    ("unchanged resets where a ring would be delivered", 700),
    ("changed disconnects that are delivered", 400),
    ("unchanged disconnects where a ring would be delivered", 700),
    ("unchanged State stores, another value in the entry", 150),
    ("changed State stores of the value in the entry", 150),
    ("resets and disconnects with State 0, another in the entry", 40),
];

/// What is counted of the words that calls are lent, and how often it must be seen in a million calls of random histories. But
/// for set-ups, these are calls refused with 10 because the words are not as many as their first two ask for.
pub const WORDS: [(&str, u64); 22] = [
    ("calls on a word less than asked for", 2_000),
    ("calls on a word more than asked for", 2_000),
    ("calls on a sound hub and a word behind it", 2_000),
    ("calls on a sound hub of fewer than 64 by 16, in 4618 words", 300),
    ("calls on 0 to 10 words", 1_000),
    ("calls on hubs sound but for word 0", 700),
    ("calls on hubs sound but for word 0, which is above 2^16", 400),
    ("calls on hubs sound but for word 1", 700),
    ("calls on hubs sound but for word 1, which is above 2^16", 400),
    ("set-ups refused with 1 on the words that they ask for", 700),
    ("set-ups refused with 1 on others", 1_000),
    ("set-ups refused with 1 on others and on another region", 700),
    ("set-ups refused with 10 on a word less", 200),
    ("set-ups refused with 10 on a word more", 200),
    ("set-ups refused with 10 on 0 to 10 words", 100),
    ("set-ups of fewer than 64 by 16 refused with 10 on 4618 words", 50),
    ("set-ups refused with 10 on another region too", 300),
    ("set-ups refused with 1 that found words not zero", 1_000),
    ("set-ups refused with 1 that found a sound hub", 300),
    ("set-ups refused with 10 that found words not zero", 400),
    ("set-ups refused with 2 that found words not zero", 200),
    ("set-ups refused with 2 that found a sound hub", 100),
];
/// How many of [`WORDS`], from the first on, are calls but set-ups.
pub const ON_WRONG_WORDS: usize = 9;

/// What is counted of the base, and how often it must be seen in a million calls of random histories.
pub const BASES: [(&str, u64); 7] = [
    ("calls on hubs sound but for base 0", 100),
    ("calls on hubs sound but for base FF000h", 250),
    ("calls taken on hubs at 100000h", 70_000),
    ("set-ups at base 0 refused with 1 for the base alone", 30),
    ("set-ups at FF000h refused with 1 for the base alone", 60),
    ("set-ups at 100000h taken", 400),
    ("set-ups that end at 2^64 taken", 400),
];
/// How many of [`BASES`], from the first on, are calls but set-ups.
pub const ON_BASES: usize = 3;

/// What is counted of the host's questions, and how often it must be seen in a million calls of random histories.
pub const QUESTIONS: [(&str, u64); 6] = [
    ("asked about words that are a sound hub", 150_000),
    ("asked about words that are not", 20_000),
    ("asked about a peer that is connected", 100_000),
    ("asked about a peer that is not", 15_000),
    ("asked about a peer, refused with 3", 15_000),
    ("asked about a peer, refused with 10", 20_000),
];

/// Counts of calls by kind and number, of rings by outcome, and of what is at the edges of the sizes.
#[derive(Clone, Debug, Default)]
pub struct Counts {
    /// Calls of each kind, by the number answered.
    pub calls: [[u64; 12]; 13],
    /// Refusals by the number given, and by a number that applied too and comes later in the order.
    pub beside: [[u64; 12]; 12],
    /// Rings delivered.
    pub delivered: u64,
    /// Calls that delivered more than one ring.
    pub several: u64,
    /// Deliveries that cleared the target's Interrupt Control.
    pub one_shot: u64,
    /// Rings lost for one reason alone, in the order of [`BLOCKS`].
    pub lost_alone: [u64; 8],
    /// Rings lost for several reasons.
    pub lost_otherwise: u64,
    /// In the order of [`SIZES`].
    pub sizes: [u64; SIZES.len()],
    /// In the order of [`BASES`].
    pub bases: [u64; BASES.len()],
    /// In the order of [`STATES`].
    pub states: [u64; STATES.len()],
    /// In the order of [`WORDS`].
    pub words: [u64; WORDS.len()],
    /// In the order of [`QUESTIONS`].
    pub questions: [u64; QUESTIONS.len()],
    /// The numbers of peers and vectors of hubs that a call was taken on.
    pub hubs: BTreeSet<(u64, u64)>,
}

impl Counts {
    /// All calls.
    #[must_use]
    pub fn total(&self) -> u64 {
        self.calls.iter().flatten().sum()
    }

    /// Takes in one call.
    pub fn add(&mut self, call: &Call, answer: &Answer, model: &Model) {
        self.calls[call.kind()][answer.number as usize] += 1;
        self.several += u64::from(answer.count > 1);
        for (count, holds) in self.sizes.iter_mut().zip(at_sizes(call, answer, model)) {
            *count += u64::from(holds);
        }
        for (count, holds) in self.bases.iter_mut().zip(at_bases(call, answer, model)) {
            *count += u64::from(holds);
        }
        for (count, holds) in self.states.iter_mut().zip(at_states(call, answer, model)) {
            *count += u64::from(holds);
        }
        for (count, holds) in self.words.iter_mut().zip(at_words(call, answer, model)) {
            *count += u64::from(holds);
        }
        if answer.number == 0 {
            self.hubs.insert((model.numbers.peers, model.numbers.vectors));
        }
        for also in &model.also {
            self.beside[answer.number as usize][*also as usize] += 1;
        }
        for ring in &model.rings {
            match ring {
                Ring::Delivered(_, one_shot) => {
                    self.delivered += 1;
                    self.one_shot += u64::from(*one_shot);
                }
                Ring::Lost(blocks) => self.add_lost(blocks),
            }
        }
    }

    /// Takes in the answers to the host's questions.
    pub fn add_asked(&mut self, asked: &Asked) {
        let Asked { sound, connected: Answer { number, value, .. } } = *asked;
        let holds =
            [sound == 1, sound == 0, (number, value) == (0, 1), (number, value) == (0, 0), number == 3, number == 10];
        for (count, holds) in self.questions.iter_mut().zip(holds) {
            *count += u64::from(holds);
        }
    }

    /// The counts of [`SIZES`], [`BASES`], [`STATES`], [`WORDS`] and [`QUESTIONS`], each with its name and its least.
    fn named(&self) -> impl Iterator<Item = (&(&'static str, u64), u64)> {
        let sizes = SIZES.iter().zip(self.sizes);
        let bases = BASES.iter().zip(self.bases);
        let states = STATES.iter().zip(self.states);
        let words = WORDS.iter().zip(self.words);
        sizes.chain(bases).chain(states).chain(words).chain(QUESTIONS.iter().zip(self.questions))
    }

    fn add_lost(&mut self, blocks: &[Block]) {
        match (blocks, BLOCKS.iter().position(|(block, _)| blocks.first() == Some(block))) {
            ([_], Some(at)) => self.lost_alone[at] += 1,
            _ => self.lost_otherwise += 1,
        }
    }

    /// What is not covered `least` times, or of [`SIZES`], [`BASES`], [`STATES`], [`WORDS`] and [`QUESTIONS`] as often as they
    /// ask, or should never have been answered, in words; empty is good.
    #[must_use]
    pub fn gaps(&self, least: u64) -> Vec<String> {
        let mut gaps = Vec::new();
        for (kind, counts) in self.calls.iter().enumerate() {
            for (number, &count) in (0..).zip(counts) {
                let possible = POSSIBLE[kind].contains(&number);
                if possible && count < least || !possible && count > 0 {
                    gaps.push(format!("{} answered {number} {count} times", KINDS[kind]));
                }
            }
        }
        for (given, also) in BESIDE.iter().flat_map(|(given, others)| others.iter().map(move |also| (given, also))) {
            let count = self.beside[*given as usize][*also as usize];
            if count < least {
                gaps.push(format!("refused with {given} where {also} applies too: {count} times"));
            }
        }
        let rings = BLOCKS.iter().map(|(_, name)| *name).zip(self.lost_alone);
        let others = [("delivered", self.delivered), ("one-shot", self.one_shot), ("several", self.several)];
        let few = rings.chain(others).filter(|&(_, count)| count < least);
        gaps.extend(few.map(|(name, count)| format!("rings, {name}: {count}")));
        let few = self.named().filter(|((_, least), count)| count * 1_000_000 < least * self.total());
        gaps.extend(few.map(|((name, _), count)| format!("{name}: {count}")));
        gaps
    }
}

/// Which of [`SIZES`] a call is.
fn at_sizes(call: &Call, answer: &Answer, model: &Model) -> [bool; SIZES.len()] {
    let (peers, vectors, records) = (model.numbers.peers, model.numbers.vectors, model.records as u64);
    let taken = answer.number == 0;
    let on = taken && call.peer().is_some();
    let to_all = |kind: bool| kind && answer.count as u64 == LAST_PEER;
    let tabled =
        peers > FEW_PEERS && matches!(call, Call::RegisterWrite { .. } | Call::Reset { .. } | Call::Disconnect { .. });
    let rung = doorbell(call, model);
    [
        on && peers > FEW_PEERS,
        on && peers == PEERS,
        on && vectors > FEW_VECTORS,
        on && vectors == VECTORS,
        on && peers == PEERS && vectors == VECTORS,
        to_all(matches!(call, Call::RegisterWrite { .. })),
        to_all(matches!(call, Call::Reset { .. })),
        to_all(matches!(call, Call::Disconnect { .. })),
        tabled && answer.count as u64 == peers - 1 && records == peers,
        tabled && answer.number == 11 && records == peers - 1,
        on && call.peer() == Some(LAST_PEER),
        answer.number == 3 && peers == PEERS && call.peer() == Some(PEERS),
        matches!(rung, Some((LAST_PEER, _, Ring::Delivered(..)))),
        matches!(rung, Some((PEERS, _, Ring::Lost(why))) if *why == [Block::NoSuchId]) && peers == PEERS,
        matches!(rung, Some((_, LAST_VECTOR, Ring::Delivered(..)))),
        matches!(rung, Some((_, VECTORS, Ring::Lost(why))) if *why == [Block::NoSuchVector]) && vectors == VECTORS,
        matches!(call, Call::Store { id: LAST_PEER, offset, .. } if *offset >= last_output(&model.numbers)) && taken,
        matches!(call, Call::SetUp(Settings { peers: PEERS, vectors: VECTORS, .. })) && taken,
        matches!(call, Call::SetUp(Settings { peers: TOO_MANY_PEERS, .. })) && answer.number == 1,
        matches!(call, Call::SetUp(Settings { vectors: TOO_MANY_VECTORS, .. })) && answer.number == 1,
    ]
}

/// Which of [`BASES`] a call is.
fn at_bases(call: &Call, answer: &Answer, model: &Model) -> [bool; BASES.len()] {
    const BELOW: u64 = MIN_BASE - 4096;
    let settings = if let Call::SetUp(settings) = call { Some(Numbers::from(settings)) } else { None };
    let taken = settings.filter(|_| answer.number == 0);
    let low = settings.filter(|n| answer.number == 1 && Numbers { base: MIN_BASE, ..*n }.accepted());
    let base = |numbers: Option<Numbers>| numbers.map(|n| n.base);
    [
        model.handed.low_base == Some(0),
        model.handed.low_base == Some(BELOW),
        settings.is_none() && answer.number == 0 && model.numbers.base == MIN_BASE,
        base(low) == Some(0),
        base(low) == Some(BELOW),
        base(taken) == Some(MIN_BASE),
        taken.is_some_and(|n| u128::from(n.base) + n.total() == 1 << 64),
    ]
}

/// Which of [`STATES`] a call is.
fn at_states(call: &Call, answer: &Answer, model: &Model) -> [bool; STATES.len()] {
    let Some(met) = model.met else { return [false; STATES.len()] };
    let (changes, agrees) = (met.changes(), met.entry == met.register);
    let store = matches!(call, Call::RegisterWrite { .. });
    let reset = matches!(call, Call::Reset { .. });
    let disconnect = matches!(call, Call::Disconnect { .. });
    let delivered = changes && answer.count > 0;
    let missed = !changes && met.receivers;
    [
        store && changes,
        store && !changes,
        reset && changes,
        reset && !changes,
        disconnect && changes,
        disconnect && !changes,
        store && delivered,
        store && missed,
        reset && delivered,
        reset && missed,
        disconnect && delivered,
        disconnect && missed,
        store && !changes && !agrees,
        store && changes && met.value == met.entry,
        !store && !changes && !agrees,
    ]
}

/// Which of [`WORDS`] a call is.
fn at_words(call: &Call, answer: &Answer, model: &Model) -> [bool; WORDS.len()] {
    let Handed { words, asked, in_use, sound, sound_in_front, but_for, .. } = model.handed;
    let (lent, number) = (words as u128, answer.number);
    let largest = words == MAX_HUB_WORDS;
    let set_up = matches!(call, Call::SetUp(_));
    let wrong = !set_up && lent != asked;
    let refused = |given: u32| set_up && number == given;
    let another_region = model.also.contains(&2);
    let huge = |word: Option<u32>| word.is_some_and(|number| number > 1 << 16);
    [
        wrong && lent + 1 == asked,
        wrong && lent == asked + 1,
        sound_in_front && lent == asked + 1,
        sound_in_front && largest,
        wrong && lent <= 10,
        but_for[0].is_some(),
        huge(but_for[0]),
        but_for[1].is_some(),
        huge(but_for[1]),
        refused(1) && lent == asked,
        refused(1) && lent != asked,
        refused(1) && lent != asked && another_region,
        refused(10) && lent + 1 == asked,
        refused(10) && lent == asked + 1,
        refused(10) && lent <= 10,
        refused(10) && largest,
        refused(10) && another_region,
        refused(1) && in_use,
        refused(1) && sound,
        refused(10) && in_use,
        refused(2) && in_use,
        refused(2) && sound,
    ]
}

/// The target and the vector of a doorbell that rang, and what became of it.
fn doorbell<'a>(call: &Call, model: &'a Model) -> Option<(u64, u64, &'a Ring)> {
    match (call, &model.rings[..]) {
        (Call::RegisterWrite { offset: register::DOORBELL, value, .. }, [ring]) => {
            Some(((value >> 16).into(), (value & 0xffff).into(), ring))
        }
        _ => None,
    }
}

/// Where the output section of the last peer begins.
fn last_output(n: &Numbers) -> u64 {
    n.state_table + n.read_write + LAST_PEER * n.output
}

impl fmt::Display for Counts {
    fn fmt(&self, f: &mut fmt::Formatter<'_>) -> fmt::Result {
        write!(f, "{:<20} {:>8}", "call", "taken")?;
        for number in 1..12 {
            write!(f, " {:>6}", format!("no. {number}"))?;
        }
        writeln!(f)?;
        for (kind, counts) in KINDS.iter().zip(&self.calls) {
            write!(f, "{kind:<20} {:>8}", counts[0])?;
            for count in &counts[1..] {
                match count {
                    0 => write!(f, " {:>6}", "-")?,
                    count => write!(f, " {count:>6}")?,
                }
            }
            writeln!(f)?;
        }
        writeln!(f, "calls in all: {}", self.total())?;
        for (given, others) in BESIDE {
            write!(f, "refused with {given:>2} where another applies too:")?;
            for also in others {
                write!(f, " {also}: {},", self.beside[given as usize][*also as usize])?;
            }
            writeln!(f)?;
        }
        writeln!(f, "rings delivered: {} (clearing a one-shot: {})", self.delivered, self.one_shot)?;
        writeln!(f, "calls that delivered more than one ring: {}", self.several)?;
        for ((_, name), count) in BLOCKS.iter().zip(self.lost_alone) {
            writeln!(f, "rings lost only for {name:<20} {count:>8}")?;
        }
        writeln!(f, "rings lost for several reasons: {}", self.lost_otherwise)?;
        for ((name, _), count) in self.named() {
            writeln!(f, "{name:<60} {count:>8}")?;
        }
        write!(f, "sizes of hubs that calls were taken on: {}", self.hubs.len())
    }
}
