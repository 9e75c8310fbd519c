//! Random histories in which much happens: guests that boot and ring each other, with wrong arguments strewn in.

use std::collections::VecDeque;

use ivshmem::{MAX_HUB_WORDS, Settings};

use crate::call::{Call, Event, KINDS, Lengths, USUAL_RECORDS};
use crate::hub::{Hub, MAX_PEERS, MAX_VECTORS, MIN_BASE, Numbers};
use crate::layout::{BASE_WORDS, hub_words, state_word};
use crate::random::Random;
use crate::world::{LONGEST_REGION, MOST_RECORDS};

const PAGE: u64 = 4096;
const TOP: u64 = u64::MAX;
/// The most peers and vectors, as numbers of a call.
const PEERS: u64 = MAX_PEERS as u64;
const VECTORS: u64 = MAX_VECTORS as u64;
/// Half of the hubs that are made have so many at the most.
pub const FEW_PEERS: u64 = 8;
pub const FEW_VECTORS: u64 = 4;
/// What a 32-bit computation would lose.
const HIGH: u64 = 1 << 32;
/// The registers, one offset behind them and one in the middle of nothing.
const REGISTERS: [u64; 7] = [0x00, 0x04, 0x08, 0x0c, 0x10, 0x14, 0x800];

/// Makes events one at a time, looking at the hub as it stands.
pub struct Generator {
    random: Random,
    planned: VecDeque<Event>,
    left: u64,
    careless: bool,
}

impl Generator {
    /// The same seed gives the same histories.
    #[must_use]
    pub fn new(seed: u64) -> Generator {
        Generator { random: Random::new(seed), planned: VecDeque::new(), left: 0, careless: false }
    }

    /// Begins a history: a set-up, and most peers boot.
    pub fn begin(&mut self) {
        self.left = 600 + self.random.below(1400);
        self.planned.clear();
        self.plan_set_up();
    }

    /// Whether the history is at its end.
    #[must_use]
    pub fn finished(&self) -> bool {
        self.left == 0 && self.planned.is_empty()
    }

    /// The next event of the history, where it has been planned already; what stands in the hub does not matter then.
    pub fn planned(&mut self) -> Option<Event> {
        self.planned.pop_front()
    }

    /// The next event of the history.
    pub fn next(&mut self, hub: &Hub, total: usize) -> Event {
        if let Some(event) = self.planned() {
            return event;
        }
        self.left -= 1;
        if self.left == 0 && self.random.chance(1, 2) {
            self.plan_sweep(hub);
        }
        match self.random.below(1000) {
            0..2 => self.plan_refused_set_up(hub, total),
            2..3 => self.plan_large_hub(),
            3..9 => self.plan_damage(hub, total),
            9..10 => self.plan_set_up(),
            10..14 => self.plan_other_state(hub),
            14..15 => self.plan_low_base(hub, total),
            _ => {}
        }
        if let Some(event) = self.planned() {
            return event;
        }
        let event = self.any_call(hub, total);
        self.plan_what_follows(&event, hub);
        event
    }

    /// True once in so many times, and every other time where all goes wrong.
    fn slips(&mut self, one_in: u64) -> bool {
        self.random.chance(1, if self.careless { 2 } else { one_in })
    }

    /// Mostly the right lengths; a table as short as allowed, longer or too short.
    fn lengths(&mut self, hub: &Hub, total: usize) -> Lengths {
        let peers = peers_of(hub);
        let mut lengths = Lengths::USUAL;
        if self.random.chance(1, 40) {
            lengths.words = self.wrong_words(&hub.numbers);
        }
        if self.slips(40) {
            lengths.region = self.random.pick(&[-1, 1, -4096, 4, 64, -(total as i64), 8 - total as i64]);
        }
        let longer = USUAL_RECORDS as u64 + 1 + self.random.below((MOST_RECORDS - USUAL_RECORDS) as u64);
        if self.slips(40) {
            let any = self.random.below(peers);
            lengths.records = self.random.pick(&[any, peers - 1]) as usize;
        } else if self.random.chance(1, 6) {
            lengths.records = self.random.pick(&[peers, longer]) as usize;
        }
        lengths
    }

    /// A wrong number of words, less what a hub with these numbers has: one more, one fewer, 0 to 10 in all, or as many as the
    /// largest hub or another has. Now and then it is right all the same.
    fn wrong_words(&mut self, numbers: &Numbers) -> i64 {
        let other =
            Numbers { peers: self.random.below(PEERS + 1), vectors: self.random.below(VECTORS + 1), ..*numbers };
        let (few, other) = (self.random.below(11) as i64, hub_words(&other) as i64);
        let more = self.random.pick(&[few, few, MAX_HUB_WORDS as i64, other]) - hub_words(numbers).min(1 << 32) as i64;
        self.random.pick(&[-1, 1, more])
    }

    /// A set-up is lent what it asks for, or other words, another region, or both.
    fn set_up_lengths(&mut self, settings: &Settings) -> Lengths {
        let words = self.wrong_words(&settings.into());
        let region = self.random.pick(&[-1, 1, 64, -4096]);
        let (words, region) = self.random.pick(&[(0, 0), (words, 0), (0, region), (words, region)]);
        Lengths { words, region, ..Lengths::USUAL }
    }

    /// A call of a kind that is drawn by weight; set-ups are planned apart.
    fn any_call(&mut self, hub: &Hub, total: usize) -> Event {
        const WEIGHTS: [u64; KINDS.len()] = [0, 3, 1, 1, 7, 10, 5, 60, 4, 10, 7, 6, 8];
        let mut draw = self.random.below(WEIGHTS.iter().sum());
        let kind = WEIGHTS.iter().position(|weight| match draw.checked_sub(*weight) {
            Some(rest) => {
                draw = rest;
                false
            }
            None => true,
        });
        self.call_of_kind(kind.unwrap_or_default(), hub, total)
    }

    /// A call of this kind, by its place in [`KINDS`], with the lengths that it is lent.
    pub fn call_of_kind(&mut self, kind: usize, hub: &Hub, total: usize) -> Event {
        self.careless = self.random.chance(1, 12);
        let call = self.arguments(kind, hub, total);
        let lengths = match call {
            Call::SetUp(ref settings) => self.set_up_lengths(settings),
            _ => self.lengths(hub, total),
        };
        self.careless = false;
        Event::Call(call, lengths)
    }

    fn arguments(&mut self, kind: usize, hub: &Hub, total: usize) -> Call {
        let id = self.id(hub);
        match kind {
            0 => Call::SetUp(self.settings(hub)),
            1 => self.connect(hub, id),
            2 => Call::Disconnect { id },
            3 => Call::Reset { id },
            4 => {
                let (offset, width) = self.configuration_access();
                Call::ConfigurationRead { id, offset, width }
            }
            5 => self.configuration_write(id),
            6 => {
                let (offset, width) = self.bar_access(&REGISTERS);
                Call::RegisterRead { id, offset, width }
            }
            7 => self.register_write(hub, id),
            8 => {
                let (offset, width) = self.msix_access(hub);
                Call::MsixRead { id, offset, width }
            }
            9 => self.msix_write(hub, id),
            10 => {
                let (offset, length) = self.range(hub, id);
                Call::Section { id, offset, length }
            }
            11 => {
                let (offset, length) = self.buffer_range(hub, id, total);
                Call::Load { id, offset, length }
            }
            _ => {
                let (offset, length) = self.buffer_range(hub, id, total);
                Call::Store { id, offset, length, fill: self.random.word() as u8 }
            }
        }
    }

    /// Mostly bad settings; half of them for a hub of the size that there is already.
    fn settings(&mut self, hub: &Hub) -> Settings {
        let Numbers { peers, vectors, .. } = hub.numbers;
        let mut good = good_settings(&mut self.random);
        if hub.numbers.accepted() && self.random.chance(1, 2) {
            good = Settings { peers, vectors, output: 0, ..good };
        }
        if self.random.chance(1, 4) { good } else { spoiled(&mut self.random, good) }
    }

    /// Mostly a doorbell; often a new state, or Interrupt Control switched on again.
    fn register_write(&mut self, hub: &Hub, id: u64) -> Call {
        let draw = if self.careless { 39 } else { self.random.below(40) };
        let (offset, width, value) = match draw {
            0..22 => (0x0c, 4, self.doorbell(hub, id)),
            22..26 => (0x10, 4, self.state(hub, id)),
            26..37 => (0x08, 4, self.random.pick(&[1, 1, 1, 1, 1, 1, 1, 1, 1, 0, u32::MAX, 2])),
            _ => {
                let (offset, width) = self.bar_access(&REGISTERS);
                (offset, width, self.value())
            }
        };
        Call::RegisterWrite { id, offset, width, value }
    }

    /// Mostly a connected peer; sometimes any, sometimes none.
    fn id(&mut self, hub: &Hub) -> u64 {
        let peers = peers_of(hub);
        if self.slips(40) {
            return self.random.pick(&[peers, peers + 1, PEERS - 1, PEERS, PEERS + 1, 255, HIGH, HIGH + 1, TOP]);
        }
        // The last one is one of many, but what is at an edge should not be rare.
        let start = if self.random.chance(1, 16) { peers - 1 } else { self.random.below(peers) };
        let connected = |id: &u64| hub.peers.get(*id as usize).is_some_and(|peer| peer.connected == 1);
        let found = (0..peers).map(|step| (start + step) % peers).find(connected);
        found.filter(|_| !self.slips(12)).unwrap_or(start)
    }

    fn value(&mut self) -> u32 {
        let any = self.random.word();
        self.random.pick(&[0, 1, 2, 3, u32::MAX, 0x8000_0000, any, any, any])
    }

    /// A third of the time what State holds already, which is no change.
    fn state(&mut self, hub: &Hub, id: u64) -> u32 {
        let (other, held) = (self.value(), state_of(hub, id));
        self.random.pick(&[other, other, held])
    }

    fn doorbell(&mut self, hub: &Hub, id: u64) -> u32 {
        let (peers, vectors) = (hub.numbers.peers, hub.numbers.vectors);
        let target = match self.random.below(24) {
            0 => self.random.pick(&[peers, peers + 1, PEERS - 1, PEERS, 0x100, 0xffff]),
            1 => id,
            2..4 => self.random.below(peers_of(hub)),
            _ => self.id(hub),
        };
        let vector = match self.random.below(24) {
            0..2 => self.random.pick(&[vectors, vectors + 1, VECTORS - 1, VECTORS, 0x100, 0x8000, 0xffff]),
            // Every boot sets up the first and the last.
            2..12 => self.random.pick(&[0, vectors_of(hub) - 1]),
            _ => self.random.below(vectors_of(hub)),
        };
        (target as u32 & 0xffff) << 16 | vector as u32 & 0xffff
    }

    fn width(&mut self) -> u64 {
        if self.slips(16) {
            self.random.pick(&[0, 3, 5, 6, 7, 8, 16, 255, 256, HIGH + 1, HIGH + 4, TOP, TOP - 3])
        } else {
            self.random.pick(&[1, 2, 4])
        }
    }

    fn configuration_access(&mut self) -> (u64, u64) {
        let width = self.width();
        let draw = if self.slips(16) { 0 } else { 1 + self.random.below(15) };
        let offset = match draw {
            0 => self.random.pick(&[252, 254, 255, 256, 257, 258, 260, 4096, HIGH, HIGH + 4, TOP, TOP - 1, TOP - 3]),
            1..8 => {
                const NAMED: [u64; 16] =
                    [0, 4, 5, 8, 0x10, 0x11, 0x14, 0x2c, 0x34, 0x3c, 0x40, 0x43, 0x44, 0x60, 0x63, 0x64];
                self.random.pick(&NAMED)
            }
            _ => self.random.below(256),
        };
        self.align(offset, width)
    }

    /// Mostly on a multiple of the width.
    fn align(&mut self, offset: u64, width: u64) -> (u64, u64) {
        match width {
            1 | 2 | 4 if !self.slips(12) => (offset - offset % width, width),
            _ => (offset, width),
        }
    }

    /// Mostly a guest that switches something on.
    fn configuration_write(&mut self, id: u64) -> Call {
        let draw = if self.careless { 23 } else { self.random.below(24) };
        let (offset, width, value) = match draw {
            0..6 => (0x04, 2, self.random.pick(&[0x0006, 0x0006, 0x0006, 0x0406, 0xffff, 0x0002, 0x0004, 0])),
            6..12 => (0x63, 1, self.random.pick(&[0x80, 0x80, 0x80, 0x80, 0xff, 0xc0, 0x00, 0x40])),
            12..15 => (0x60, 4, self.random.pick(&[0x8000_0000, 0x8000_0000, u32::MAX, 0x4000_0000])),
            15..17 => (0x40, 4, self.random.pick(&[0x0100_0000, u32::MAX, 0])),
            17..19 => (0x43, 1, self.random.pick(&[0, 1, 1, 0xfe])),
            _ => {
                let (offset, width) = self.configuration_access();
                (offset, width, self.value())
            }
        };
        Call::ConfigurationWrite { id, offset, width, value }
    }

    /// An access to one of the named offsets or at an edge of a 4096-byte space, mostly 4 bytes.
    fn bar_access(&mut self, named: &[u64]) -> (u64, u64) {
        let width = if self.slips(16) { self.width() } else { 4 };
        let draw = if self.slips(8) { self.random.below(2) } else { 2 + self.random.below(14) };
        let offset = match draw {
            0 => self.random.pick(&[PAGE, PAGE + 4, PAGE - 2, HIGH, HIGH + 8, HIGH + 12, TOP, TOP - 3, TOP - 7]),
            1 => self.random.pick(&[1, 2, 3, 5, 9, 0x0d, 0x0e, 0x11, PAGE - 1, PAGE - 3]),
            2 => PAGE - 4,
            3 => self.random.below(PAGE / 4) * 4,
            _ => self.random.pick(named),
        };
        (offset, width)
    }

    /// An access to one of the entries, or to where one more would be.
    fn msix_access(&mut self, hub: &Hub) -> (u64, u64) {
        let entry = self.random.below(vectors_of(hub) + 1) * 16;
        self.bar_access(&[entry, entry + 4, entry + 8, entry + 12, 0x800])
    }

    /// Mostly a guest that takes a mask off.
    fn msix_write(&mut self, hub: &Hub, id: u64) -> Call {
        if !self.careless && self.random.chance(1, 2) {
            let offset = 16 * self.random.below(vectors_of(hub)) + 12;
            return Call::MsixWrite {
                id,
                offset,
                width: 4,
                value: self.random.pick(&[0, 0, 0, 0, 0xffff_fffe, 1, u32::MAX]),
            };
        }
        let (offset, width) = self.msix_access(hub);
        // An odd value would mask an entry too often here.
        let value = if offset % 16 == 12 { self.value() & !1 } else { self.value() };
        Call::MsixWrite { id, offset, width, value }
    }

    /// A shared range, mostly whole in a section.
    fn range(&mut self, hub: &Hub, id: u64) -> (u64, u64) {
        let (start, size) = self.section(hub, id);
        let edge = self.random.pick(&[start, start + size, start + size / 2]);
        let draw = self.random.below(if self.careless { 8 } else { 24 });
        match draw {
            0 => (start, 0),
            1 => (
                self.random.pick(&[TOP, TOP - 1, TOP - 3, HIGH, HIGH + start, 1 << 30, 1 << 63]),
                1 + self.random.below(8),
            ),
            2 => (
                edge,
                self.random.pick(&[TOP, TOP - edge, (TOP - edge).saturating_add(1), HIGH, HIGH + 1, size + 1, 1 << 30]),
            ),
            3 => (edge.saturating_sub(self.random.below(4)), 1 + self.random.below(8)),
            4 => (start, size),
            5 => (start, size + self.random.below(2)),
            6 => (start.saturating_sub(1), 1 + self.random.below(2)),
            _ if size == 0 => (start, 1),
            _ => {
                let offset = self.random.below(size);
                (start + offset, (1 + self.random.below(24)).min(size - offset))
            }
        }
    }

    /// A section's start and size, mostly one that the peer may store to.
    fn section(&mut self, hub: &Hub, id: u64) -> (u64, u64) {
        let n = &hub.numbers;
        let owner = if self.random.chance(1, 4) { self.random.below(peers_of(hub) + 1) } else { id.min(PEERS) };
        let output = (n.state_table + n.read_write + owner * n.output, n.output);
        match self.random.below(8) {
            0 => (0, n.state_table),
            1 => output,
            2..5 if n.output > 0 => output,
            _ if n.read_write > 0 => (n.state_table, n.read_write),
            _ => output,
        }
    }

    /// A range that a buffer can have.
    fn buffer_range(&mut self, hub: &Hub, id: u64, total: usize) -> (u64, usize) {
        let (offset, length) = self.range(hub, id);
        (offset, length.min(total as u64 + 8) as usize)
    }

    /// Usually one that is away, so that it comes back.
    fn connect(&mut self, hub: &Hub, id: u64) -> Call {
        let away = hub.peers.iter().position(|peer| peer.connected == 0);
        let other = away.filter(|_| self.random.chance(3, 4));
        Call::Connect { id: other.map_or(id, |other| other as u64) }
    }

    /// A peer that starts anew mostly boots.
    fn plan_what_follows(&mut self, event: &Event, hub: &Hub) {
        if let Event::Call(Call::Connect { id } | Call::Reset { id }, _) = *event
            && id < hub.numbers.peers
            && self.random.chance(3, 4)
        {
            self.plan_boot(id, vectors_of(hub), false);
        }
    }

    /// The vectors that a driver sets up: all, or of many the first, the last and another.
    fn booted(&mut self, vectors: u64) -> Vec<u64> {
        if vectors <= FEW_VECTORS {
            return (0..vectors).collect();
        }
        vec![0, self.random.below(vectors), vectors - 1]
    }

    /// What a driver does. Where the boot is not whole every step is left out now and then, so that single switches stay off.
    fn plan_boot(&mut self, id: u64, vectors: u64, whole: bool) {
        let command = self.random.pick(&[0x0006, 0x0006, 0x0406, 0xffff]);
        let mut calls = vec![Call::ConfigurationWrite { id, offset: 0x04, width: 2, value: command }];
        for v in self.booted(vectors) {
            let (low, high, data) = (self.value(), self.value(), self.value());
            for (offset, value) in [(0, low), (4, high), (8, data), (12, 0)] {
                calls.push(Call::MsixWrite { id, offset: 16 * v + offset, width: 4, value });
            }
        }
        if self.random.chance(1, 3) {
            calls.push(Call::ConfigurationWrite { id, offset: 0x43, width: 1, value: 1 });
        }
        calls.push(Call::ConfigurationWrite { id, offset: 0x62, width: 2, value: 0x8000 });
        calls.push(Call::RegisterWrite { id, offset: 0x08, width: 4, value: 1 });
        for call in calls {
            if whole || !self.random.chance(1, 24) {
                self.planned.push_back(call.into());
            }
        }
    }

    fn plan_set_up(&mut self) {
        let settings = good_settings(&mut self.random);
        self.planned.push_back(Call::SetUp(settings).into());
        let whole = self.random.chance(1, 4);
        let announcer = self.random.below(settings.peers);
        if whole {
            self.plan_state(announcer);
        }
        for id in 0..settings.peers {
            if !whole && self.random.chance(1, 6) {
                continue;
            }
            if !whole || id != announcer {
                self.planned.push_back(Call::Connect { id }.into());
            }
            // Where there are many, half of them have no driver: boots are long, and a history should have other calls too.
            if whole || settings.peers <= FEW_PEERS || self.random.chance(1, 2) {
                self.plan_boot(id, settings.vectors, whole);
            }
        }
        if whole {
            self.plan_rings_at_all(settings.peers, announcer);
        }
    }

    /// A peer joins and stores to State while nobody can be rung yet, so that a later reset changes it.
    fn plan_state(&mut self, id: u64) {
        let value = self.random.word() | 1;
        self.planned.push_back(Call::Connect { id }.into());
        self.planned.push_back(Call::ConfigurationWrite { id, offset: 0x04, width: 2, value: 0x0002 }.into());
        self.planned.push_back(Call::RegisterWrite { id, offset: 0x10, width: 4, value }.into());
    }

    /// A State register is no longer what the State Table has for it, as broken memory or another region would make it; then
    /// the peer stores what the register or what the entry holds, or is reset or disconnected.
    fn plan_other_state(&mut self, hub: &Hub) {
        let id = self.id(hub);
        if hub.peers.get(id as usize).is_none_or(|peer| peer.connected != 1) {
            return;
        }
        let (held, one) = (state_of(hub, id), 1 << self.random.below(32));
        let bits = match self.random.pick(&[held, one]) {
            0 => one,
            bits => bits,
        };
        self.planned.push_back(Event::Flip { word: state_word(id), bits });
        let value = self.random.pick(&[held, held ^ bits]);
        self.planned.push_back(match self.random.below(4) {
            0 => Call::Reset { id }.into(),
            1 => Call::Disconnect { id }.into(),
            _ => Call::RegisterWrite { id, offset: 0x10, width: 4, value }.into(),
        });
    }

    /// With everything on, all the others are rung, which disarms those that are one-shot: on a table that is one record too
    /// short, then on one that is just long enough.
    fn plan_rings_at_all(&mut self, peers: u64, id: u64) {
        let call = match self.random.below(3) {
            0 => Call::RegisterWrite { id, offset: 0x10, width: 4, value: self.value() },
            1 => Call::Reset { id },
            _ => Call::Disconnect { id },
        };
        for records in [peers - 1, peers] {
            let lengths = Lengths { records: records as usize, ..Lengths::USUAL };
            self.planned.push_back(Event::Call(call.clone(), lengths));
        }
    }

    /// Set-ups with a wrong number, or lent other words or another region than they ask for, half of them on a hub of the same
    /// size; a few calls find no hub; a good set-up.
    fn plan_refused_set_up(&mut self, hub: &Hub, total: usize) {
        for _ in 0..8 {
            let good = good_settings(&mut self.random);
            if self.random.chance(1, 2) {
                self.planned.push_back(Call::SetUp(good).into());
            }
            let settings = if self.random.chance(1, 4) { good } else { spoiled(&mut self.random, good) };
            let lengths = self.set_up_lengths(&settings);
            self.planned.push_back(Event::Call(Call::SetUp(settings), lengths));
            let event = self.any_call(hub, total);
            self.planned.push_back(event);
        }
        self.plan_set_up();
    }

    /// A hub with sections near the largest, on which everything works that needs no region.
    fn plan_large_hub(&mut self) {
        let settings = large_settings(&mut self.random);
        let mask = self.random.long() | self.random.long() | 1;
        self.planned.push_back(Event::Plant(settings, mask));
        let hub = Hub::fresh((&settings).into());
        for _ in 0..24 {
            let id = self.random.below(settings.peers);
            let (offset, length) = self.range(&hub, id);
            let length = if self.random.chance(1, 2) { length } else { 1 + self.random.below(4) };
            self.planned.push_back(Call::Section { id, offset, length }.into());
            if self.random.chance(1, 2) {
                let event = self.any_call(&hub, 0);
                self.planned.push_back(event);
            }
        }
        for offset in (0x40..0x60).step_by(4) {
            self.planned.push_back(Call::ConfigurationRead { id: 0, offset, width: 4 }.into());
        }
        self.plan_set_up();
    }

    /// Some bits turn over, often such as say how large the hub is, calls are made, the bits turn back.
    fn plan_damage(&mut self, hub: &Hub, total: usize) {
        let any = self.random.below(hub_words(&hub.numbers) as u64) as usize;
        let word = self.random.pick(&[0, 1, any, any, any, any]);
        let (one, another) = (1 << self.random.below(32), 1 << self.random.below(32));
        let bits = self.random.pick(&[one, one, one | another]);
        self.planned.push_back(Event::Flip { word, bits });
        for _ in 0..4 {
            let event = self.any_call(hub, total);
            self.planned.push_back(event);
        }
        self.planned.push_back(Event::Flip { word, bits });
    }

    /// The base is another, mostly a lower one than set-up takes; calls are made, and it is what it was.
    fn plan_low_base(&mut self, hub: &Hub, total: usize) {
        let other = self.random.pick(&[0, PAGE, MIN_BASE - PAGE, MIN_BASE - PAGE, MIN_BASE, HIGH]);
        let bits = hub.numbers.base ^ other;
        let turn = BASE_WORDS.into_iter().zip([bits as u32, (bits >> 32) as u32]);
        let turn = turn.filter(|(_, bits)| *bits != 0).map(|(word, bits)| Event::Flip { word, bits });
        self.planned.extend(turn.clone());
        for _ in 0..4 {
            let event = self.any_call(hub, total);
            self.planned.push_back(event);
        }
        self.planned.extend(turn);
    }

    /// Reads all that one peer can read.
    fn plan_sweep(&mut self, hub: &Hub) {
        let id = self.id(hub);
        for offset in (0..256).step_by(4) {
            self.planned.push_back(Call::ConfigurationRead { id, offset, width: 4 }.into());
        }
        for offset in (0..0x18).step_by(4) {
            self.planned.push_back(Call::RegisterRead { id, offset, width: 4 }.into());
        }
        for offset in (0..16 * VECTORS + 4).step_by(4).chain([0x800]) {
            self.planned.push_back(Call::MsixRead { id, offset, width: 4 }.into());
        }
    }
}

/// A hub's peers, clamped to what a hub can have, since its words may hold any number.
fn peers_of(hub: &Hub) -> u64 {
    hub.numbers.peers.clamp(1, PEERS)
}

/// A peer's State, or 0 where there is no such peer.
fn state_of(hub: &Hub, id: u64) -> u32 {
    hub.peers.get(id as usize).map_or(0, |peer| peer.state)
}

fn vectors_of(hub: &Hub) -> u64 {
    hub.numbers.vectors.clamp(1, VECTORS)
}

/// A number from `least` to `most`: half of the time up to `few`, otherwise above or the most itself.
fn number(random: &mut Random, least: u64, few: u64, most: u64) -> u64 {
    match random.below(8) {
        0..4 => least + random.below(few + 1 - least),
        4..6 => few + 1 + random.below(most - few),
        _ => most,
    }
}

/// Accepted settings with a small region.
pub fn good_settings(random: &mut Random) -> Settings {
    let peers = number(random, 2, FEW_PEERS, PEERS);
    let mut settings = Settings {
        peers,
        vectors: number(random, 1, FEW_VECTORS, VECTORS),
        state_table: random.pick(&[PAGE, PAGE, 2 * PAGE]),
        read_write: random.pick(&[0, PAGE, PAGE, 2 * PAGE]),
        output: random.pick(&[0, PAGE, PAGE, 2 * PAGE]),
        base: MIN_BASE,
        protocol: random.word() as u16,
        subsystem_vendor: random.word() as u16,
        subsystem_id: random.word() as u16,
    };
    if peers > 4 {
        settings.output = settings.output.min(PAGE);
    }
    // Long regions take long to compare.
    if peers > FEW_PEERS && random.chance(2, 3) {
        settings.output = 0;
    }
    let total = Numbers::from(&settings).total();
    debug_assert!(total <= LONGEST_REGION);
    let last = TOP - total as u64 + 1;
    let any = random.long() / 2;
    settings.base =
        random.pick(&[MIN_BASE, MIN_BASE + PAGE, HIGH - PAGE, HIGH, (any - any % PAGE).max(MIN_BASE), last]);
    settings
}

/// Good settings with one number at or over an edge; now and then they are good all the same.
pub fn spoiled(random: &mut Random, good: Settings) -> Settings {
    let wrong_size =
        random.pick(&[1, 4095, 4097, 4100, 1 << 30, (1 << 30) + PAGE, HIGH, HIGH + PAGE, TOP, TOP - 4095, 1 << 63]);
    match random.below(12) {
        0..2 => Settings { peers: random.pick(&[0, 1, 2, PEERS, PEERS + 1, PEERS + 1, HIGH + 2, TOP]), ..good },
        2..4 => Settings { vectors: random.pick(&[0, 1, VECTORS, VECTORS + 1, VECTORS + 1, HIGH + 1, TOP]), ..good },
        4 => Settings { state_table: random.pick(&[0, 0, wrong_size]), ..good },
        5 => Settings { read_write: wrong_size, ..good },
        6 => Settings { output: random.pick(&[wrong_size, 1 << 58, 1 << 61, 1 << 62, 1 << 29, 1 << 27]), ..good },
        7 => Settings { base: random.pick(&[MIN_BASE + 1, MIN_BASE + 4095, TOP, TOP - 4095, good.base + 1]), ..good },
        8 => {
            Settings { base: random.pick(&[0, PAGE, MIN_BASE - PAGE, MIN_BASE - PAGE, MIN_BASE - 1, MIN_BASE]), ..good }
        }
        9 => {
            let total = Numbers::from(&good).total() as u64;
            Settings { base: (TOP - total + 1).wrapping_add(random.pick(&[PAGE, 0, 1, TOP - PAGE + 1])), ..good }
        }
        10 => {
            let mut large = large_settings(random);
            large.read_write += random.pick(&[PAGE, 0, 2 * PAGE]);
            large
        }
        _ => Settings { peers: random.long(), vectors: random.long(), state_table: random.long(), ..good },
    }
}

/// Settings whose total is 2^30 exactly, or far above what the host makes.
pub fn large_settings(random: &mut Random) -> Settings {
    let mut settings = good_settings(random);
    settings.base = random.pick(&[MIN_BASE, HIGH, TOP - (1 << 30) + 1]);
    let half = (1 << 29) / settings.peers;
    settings.output = random.pick(&[0, PAGE, 1 << 20, half - half % PAGE]);
    let rest = (1 << 30) - settings.peers * settings.output;
    match random.below(3) {
        0 => (settings.state_table, settings.read_write) = (rest, 0),
        1 => (settings.state_table, settings.read_write) = (PAGE, rest - PAGE),
        _ => (settings.state_table, settings.read_write) = (1 << 20, 1 << 22),
    }
    settings
}
