//! Random logs: the histories of [`generate`](crate::generate), as far as a log can hold them, on hubs that a log can set up.

use ivshmem::Settings;

use crate::call::{Call, Event};
use crate::generate::Generator;
use crate::hub::{MAX_PEERS, Numbers};
use crate::log::{BODIES, Desk, ENDS_INSIDE, LARGEST_TOTAL, UNKNOWN_KIND, record};
use crate::random::Random;

const PAGE: u64 = 4096;

/// A log: whole records, then what ends it.
#[derive(Clone, Debug, Default)]
pub struct Made {
    pub records: Vec<Vec<u8>>,
    /// Bytes behind the records: nothing, a part of a record, or a byte of no kind and anything.
    pub tail: Vec<u8>,
}

impl Made {
    /// All bytes of the log.
    #[must_use]
    pub fn bytes(&self) -> Vec<u8> {
        self.records.iter().flatten().chain(&self.tail).copied().collect()
    }

    /// What a player must write for it, by the model; each record is shown with the desk after it.
    pub fn written(&self, mut each: impl FnMut(&[u8], &Desk)) -> Vec<u8> {
        let mut desk = Desk::default();
        let mut written = Vec::new();
        for record in &self.records {
            desk.answer(record, &mut written);
            each(record, &desk);
        }
        written.extend(self.tail.first().map(|kind| match BODIES.get(usize::from(*kind)) {
            Some(_) => ENDS_INSIDE,
            None => UNKNOWN_KIND,
        }));
        written
    }
}

/// Makes logs, one after another.
pub struct Logs {
    generator: Generator,
    random: Random,
    most_peers: u64,
}

impl Logs {
    /// The same seed gives the same logs. No hub in them has more peers than this.
    #[must_use]
    pub fn new(seed: u64, most_peers: usize) -> Logs {
        Logs { generator: Generator::new(seed), random: Random::new(!seed), most_peers: most_peers as u64 }
    }

    /// A log of so many records, or one or two more.
    pub fn next(&mut self, records: usize) -> Made {
        let mut desk = Desk::default();
        let mut made = Made::default();
        // The first record of some logs meets no hub.
        if self.random.chance(1, 4) {
            let event = self.generator.call_of_kind(1, &desk.hub, 0);
            made.records.extend(self.records_of(event));
        }
        while made.records.len() < records {
            self.add_history(&mut desk, &mut made.records, records);
        }
        made.tail = self.tail();
        made
    }

    /// A history, or as much of it as there is room for. It ends before a hub that is too large.
    fn add_history(&mut self, desk: &mut Desk, records: &mut Vec<Vec<u8>>, most: usize) {
        let mut written = Vec::new();
        let too_many = self.most_peers + 1..=MAX_PEERS as u64;
        self.generator.begin();
        while records.len() < most && !self.generator.finished() {
            let event = self.generator.next(&desk.hub, desk.region.len());
            if matches!(&event, Event::Call(Call::SetUp(settings), _) if too_many.contains(&settings.peers)) {
                return;
            }
            for record in self.records_of(event) {
                written.clear();
                desk.answer(&record, &mut written);
                records.push(record);
            }
        }
    }

    /// A player lends the right memory whatever the event says, and nothing damages that.
    fn records_of(&mut self, event: Event) -> Vec<Vec<u8>> {
        let Event::Call(mut call, _) = event else { return Vec::new() };
        match &mut call {
            Call::SetUp(settings) if Numbers::from(&*settings).accepted() => return self.set_ups(*settings),
            // What is at the end of a range is worth as much as what is at its start.
            Call::Load { offset, length, .. } | Call::Store { offset, length, .. } if self.random.chance(1, 2) => {
                *offset = offset.wrapping_add(*length as u64).wrapping_sub(1);
            }
            _ => {}
        }
        record(&call).into_iter().collect()
    }

    /// A set-up that a hub takes, made such as a log takes too, often just so. Sometimes before it one that a log just does not
    /// take, or the one that it was, and a record that meets no hub.
    fn set_ups(&mut self, settings: Settings) -> Vec<Vec<u8>> {
        let total = |settings: &Settings| Numbers::from(settings).total();
        let mut fitting = settings;
        if total(&fitting) > LARGEST_TOTAL {
            fitting = Settings { state_table: PAGE, read_write: 0, output: PAGE, ..settings };
        }
        if total(&fitting) > LARGEST_TOTAL {
            fitting = Settings { read_write: self.random.pick(&[0, PAGE, 2 * PAGE]), output: 0, ..fitting };
        }
        let room = LARGEST_TOTAL as u64 - (total(&fitting) as u64 - fitting.read_write);
        let just_not = Settings { read_write: room + PAGE, ..fitting };
        if self.random.chance(1, 4) {
            fitting.read_write = room;
        }
        let before = match self.random.below(8) {
            0 => vec![Call::SetUp(just_not), Call::Connect { id: 0 }],
            1 => vec![Call::SetUp(settings)],
            _ => Vec::new(),
        };
        before.iter().chain([&Call::SetUp(fitting)]).filter_map(record).collect()
    }

    /// Half of the logs end with a record, the others inside one or with a byte of no kind.
    fn tail(&mut self) -> Vec<u8> {
        let junk = |random: &mut Random, bytes: u64| (0..bytes).map(|_| random.word() as u8).collect::<Vec<u8>>();
        match self.random.below(4) {
            0 => {
                let kind = self.random.below(BODIES.len() as u64) as u8;
                let held = self.random.below(BODIES[usize::from(kind)] as u64);
                [vec![kind], junk(&mut self.random, held)].concat()
            }
            1 => {
                let kinds = BODIES.len() as u64;
                let any = (kinds + self.random.below(256 - kinds)) as u8;
                let kind = self.random.pick(&[0x0c, 0x0d, 0x7f, 0x80, 0x81, 0xff, any]);
                let behind = self.random.below(80);
                [vec![kind], junk(&mut self.random, behind)].concat()
            }
            _ => Vec::new(),
        }
    }
}
