//! Pairs of histories with the same window of one peer. The first is random; the second has what its window holds, sent by
//! others where that is possible, and of the rest only what happens to stay, in any order, and other calls.

use ivshmem::{Section, Settings, register};

use crate::call::{Call, Event, KINDS, Lengths};
use crate::generate::{Generator, good_settings};
use crate::hub::Hub;
use crate::random::Random;
use crate::window::Item;

const PAGE: u64 = 4096;

/// One event of a history, and the item of the window that it gives.
#[derive(Clone, Debug)]
pub struct Step {
    pub event: Event,
    pub item: Option<Item>,
}

/// A hub and one of its peers, and how the histories of a pair differ.
#[derive(Clone, Debug)]
pub struct Plan {
    pub settings: Settings,
    /// The peer whose window it is.
    pub of: u64,
    /// Some others, that do most of what is done.
    others: Vec<u64>,
    /// Calls of the first history.
    pub calls: u64,
    /// Out of 8: how many of the calls without an item are left out, and how often one is put in.
    drop: u64,
    insert: u64,
    shuffle: bool,
    /// Now and then what is put in may give items, so that the windows differ.
    another: bool,
}

/// Makes plans and calls.
pub struct Maker {
    random: Random,
    generator: Generator,
}

impl Maker {
    /// The same seed gives the same plans and calls.
    #[must_use]
    pub fn new(seed: u64) -> Maker {
        Maker { random: Random::new(seed), generator: Generator::new(!seed) }
    }

    /// Mostly 2 to 8 peers, now and then 64.
    pub fn plan(&mut self) -> Plan {
        let random = &mut self.random;
        let peers = if random.chance(1, 24) { 64 } else { 2 + random.below(7) };
        let settings = Settings {
            peers,
            vectors: if random.chance(1, 16) { 16 } else { 1 + random.below(3) },
            state_table: PAGE,
            read_write: random.pick(&[0, PAGE, PAGE]),
            output: if peers == 64 { 0 } else { random.pick(&[0, PAGE, PAGE]) },
            base: 1 << 32,
            ..good_settings(random)
        };
        let of = random.below(peers);
        let mut others: Vec<u64> = (0..4).map(|_| random.below(peers)).filter(|id| *id != of).collect();
        others.push((of + 1) % peers);
        let calls = 50 + random.below(51);
        let (drop, insert) = (random.pick(&[0, 2, 4, 8]), random.pick(&[0, 2, 4, 8]));
        let (shuffle, another) = (random.chance(1, 2), random.chance(1, 16));
        Plan { settings, of, others, calls, drop, insert, shuffle, another }
    }

    /// How the history begins: the peer joins and boots, and so do some others, at the same time.
    pub fn beginning(&mut self, plan: &Plan) -> Vec<Event> {
        let mut boots = vec![self.boot(plan, plan.of, true)];
        for id in &plan.others {
            let whole = self.random.chance(1, 2);
            boots.push(self.boot(plan, *id, whole));
        }
        let mut events = Vec::new();
        while !boots.is_empty() {
            let next = self.random.below(boots.len() as u64) as usize;
            match boots[next].pop() {
                Some(call) => events.push(call.into()),
                None => drop(boots.remove(next)),
            }
        }
        events
    }

    /// What a driver does, last call first; where it is not whole, only Command is written.
    fn boot(&mut self, plan: &Plan, id: u64, whole: bool) -> Vec<Call> {
        let command = self.random.pick(&[0x0006, 0x0006, 0x0406]);
        let mut calls =
            vec![Call::Connect { id }, Call::ConfigurationWrite { id, offset: 0x04, width: 2, value: command }];
        if whole {
            for v in [0, self.random.below(plan.settings.vectors)] {
                for (offset, value) in [(8, self.random.word()), (12, 0)] {
                    calls.push(Call::MsixWrite { id, offset: 16 * v + offset, width: 4, value });
                }
            }
            if self.random.chance(1, 2) {
                calls.push(Call::ConfigurationWrite { id, offset: 0x43, width: 1, value: 1 });
            }
            calls.push(Call::ConfigurationWrite { id, offset: 0x62, width: 2, value: 0x8000 });
            calls.push(Call::RegisterWrite { id, offset: register::INTERRUPT_CONTROL, width: 4, value: 1 });
        }
        calls.reverse();
        calls
    }

    /// Any call, on the hub as it stands.
    pub fn any(&mut self, plan: &Plan, hub: &Hub) -> Event {
        let total = hub.numbers.total() as usize;
        if self.random.chance(1, 6) {
            // Of any kind but set-up, by or on any peer, often with something wrong.
            let kind = 1 + self.random.below(KINDS.len() as u64 - 1) as usize;
            return self.generator.call_of_kind(kind, hub, total);
        }
        let id = if self.random.chance(2, 5) { plan.of } else { self.random.pick(&plan.others) };
        let off = switched_off(hub, id).filter(|_| self.random.chance(1, 3));
        let call = off.unwrap_or_else(|| match self.random.below(20) {
            0..11 => self.register_write(plan, id),
            11..13 => self.switch(hub, id),
            13..17 => self.read(hub, id),
            17..19 => self.store(hub, id),
            _ if self.random.chance(1, 2) => Call::Reset { id },
            _ => Call::Disconnect { id },
        });
        Event::Call(call, self.lengths(hub))
    }

    /// Mostly the right lengths.
    fn lengths(&mut self, hub: &Hub) -> Lengths {
        let short = hub.numbers.peers as usize - 1;
        match self.random.below(40) {
            0 => Lengths { records: short, ..Lengths::USUAL },
            1 => Lengths { region: -1, ..Lengths::USUAL },
            2 => Lengths { words: 1, ..Lengths::USUAL },
            _ => Lengths::USUAL,
        }
    }

    /// The peer's own stores switch Interrupt Control on; others' ring it or change their State. All of them do it all.
    fn register_write(&mut self, plan: &Plan, id: u64) -> Call {
        let another = self.random.pick(&plan.others);
        let draw = self.random.below(8);
        let (offset, value) = match draw {
            0..3 if id == plan.of => (register::INTERRUPT_CONTROL, 1),
            0 => (register::INTERRUPT_CONTROL, self.random.pick(&[0, 1, 1])),
            1..6 => {
                let target = if id != plan.of && draw < 5 { plan.of } else { another };
                let vector = self.random.below(plan.settings.vectors + u64::from(draw == 4));
                (register::DOORBELL, (target << 16 | vector) as u32)
            }
            // Few values, so that many stores change nothing.
            _ => (register::STATE, self.random.below(3) as u32),
        };
        Call::RegisterWrite { id, offset, width: 4, value }
    }

    /// A switch of the peer's is turned, mostly on.
    fn switch(&mut self, hub: &Hub, id: u64) -> Call {
        let (offset, width, value) = match self.random.below(8) {
            0..2 => (0x04, 2, self.random.pick(&[0x0006, 0x0006, 0x0006, 0x0004, 0x0002, 0])),
            2 => (0x62, 2, self.random.pick(&[0x8000, 0x8000, 0xc000, 0])),
            3..5 => (0x43, 1, self.random.pick(&[1, 1, 0])),
            _ => {
                let offset = 16 * self.random.below(hub.numbers.vectors) + self.random.pick(&[0, 4, 8, 12, 12, 12]);
                let value = if offset % 16 == 12 { self.random.pick(&[0, 0, 0, 1]) } else { self.random.word() };
                return Call::MsixWrite { id, offset, width: 4, value };
            }
        };
        Call::ConfigurationWrite { id, offset, width, value }
    }

    /// Something is read, or a section asked for.
    fn read(&mut self, hub: &Hub, id: u64) -> Call {
        let owner = self.random.below(hub.numbers.peers);
        let (offset, length) = (self.place(hub, owner), 1 + self.random.below(64));
        match self.random.below(8) {
            0..3 => Call::RegisterRead { id, offset: self.random.pick(&[0x00, 0x04, 0x08, 0x0c, 0x10]), width: 4 },
            3 => Call::MsixRead { id, offset: 4 * self.random.below(4 * hub.numbers.vectors + 1), width: 4 },
            4 => Call::ConfigurationRead { id, offset: 4 * self.random.below(64), width: 4 },
            5 => Call::Section { id, offset, length },
            6 => Call::Load { id, offset, length: length as usize },
            // The State Table.
            _ => Call::Load { id, offset: 0, length: 4 * hub.numbers.peers as usize },
        }
    }

    /// Mostly to the read/write section or the peer's own output section.
    fn store(&mut self, hub: &Hub, id: u64) -> Call {
        let (offset, length) = (self.place(hub, id), 1 + self.random.below(64) as usize);
        Call::Store { id, offset, length, fill: self.random.word() as u8 }
    }

    /// Mostly near the start of the read/write section or of this peer's output section, so that loads find what was stored.
    fn place(&mut self, hub: &Hub, owner: u64) -> u64 {
        let n = &hub.numbers;
        let any = self.random.below(n.total() as u64);
        let near = self.random.below(64);
        let output = n.state_table + n.read_write + owner * n.output + near;
        self.random.pick(&[n.state_table + near, n.state_table + near, output, output, output, any])
    }

    /// The calls of the second history that stand for these of the first, up to the next item and with it. Each is asked for
    /// with the hub as it stands then.
    pub fn rewrite(&mut self, plan: &Plan, steps: &[Step], mut apply: impl FnMut(Option<Event>) -> Hub) {
        let (last, silent) = steps.split_last().expect("there is a step");
        let mut left: Vec<&Event> = silent.iter().map(|step| &step.event).collect();
        if last.item.is_none() {
            left.push(&last.event);
        }
        let mut hub = apply(None);
        while !left.is_empty() {
            let next = if plan.shuffle { self.random.below(left.len() as u64) as usize } else { 0 };
            let event = left.remove(next);
            if !self.random.chance(plan.drop, 8) && gives_nothing(plan, &hub, event) {
                hub = apply(Some(event.clone()));
            }
            if self.random.chance(plan.insert, 8) {
                let other = self.any(plan, &hub);
                let of_another = sender(&other) != Some(plan.of);
                if plan.another && of_another || gives_nothing(plan, &hub, &other) {
                    hub = apply(Some(other));
                }
            }
        }
        if let Some(item) = &last.item {
            for event in self.resent(plan, &hub, item, &last.event) {
                apply(Some(event));
            }
        }
    }

    /// Calls that give the item, the last of them, on this hub.
    fn resent(&mut self, plan: &Plan, hub: &Hub, item: &Item, first: &Event) -> Vec<Event> {
        let Event::Call(call, lengths) = first else { return vec![] };
        let (before, any) = (call.peer().unwrap_or_default(), self.random.pick(&plan.others));
        match *item {
            Item::Own(..) => vec![first.clone()],
            Item::Bell { vector } => {
                let id = self.random.pick(&[before, any]);
                let value = (plan.of as u32) << 16 | vector;
                let ring = Call::RegisterWrite { id, offset: register::DOORBELL, width: 4, value };
                self.made_ready(hub, id, true, ring)
            }
            Item::Word { id, value } => {
                let store = Call::RegisterWrite { id, offset: register::STATE, width: 4, value };
                let ways = [store.clone(), Call::Reset { id }, Call::Disconnect { id }];
                let way = if value == 0 { &ways[self.random.below(3) as usize] } else { &store };
                self.made_ready(hub, id, *way == store, way.clone())
            }
            Item::Bytes { offset, ref bytes } => {
                let Call::Store { length, fill, .. } = *call else { return vec![] };
                let free = hub.section_of(offset, bytes.len() as u64) == Some(Section::ReadWrite);
                let id = if free { self.random.pick(&[before, any]) } else { before };
                let mut events = self.made_ready(hub, id, false, Call::Store { id, offset, length, fill });
                if let Some(Event::Call(_, usual)) = events.last_mut() {
                    *usual = *lengths;
                }
                events
            }
        }
    }

    /// The call, after what its peer has to do for it first: to join, and to have Command bit 1 on.
    fn made_ready(&mut self, hub: &Hub, id: u64, memory: bool, call: Call) -> Vec<Event> {
        let peer = &hub.peers[id as usize];
        let mut events: Vec<Event> = Vec::new();
        if peer.connected == 0 {
            events.push(Call::Connect { id }.into());
        }
        if memory && peer.command & 2 == 0 {
            let (width, value) = self.random.pick(&[(1, 2), (2, 6), (4, 0xffff_ffff)]);
            events.push(Call::ConfigurationWrite { id, offset: 0x04, width, value }.into());
        }
        events.push(call.into());
        events
    }
}

/// The peer that a call is by or on.
#[must_use]
pub fn sender(event: &Event) -> Option<u64> {
    if let Event::Call(call, _) = event { call.peer() } else { None }
}

/// The first thing that a peer which can't be rung has to do for it.
fn switched_off(hub: &Hub, id: u64) -> Option<Call> {
    let peer = &hub.peers[id as usize];
    let write = |offset, width, value| Call::ConfigurationWrite { id, offset, width, value };
    if peer.connected == 0 {
        Some(Call::Connect { id })
    } else if peer.command & 6 != 6 {
        Some(write(0x04, 2, 0x0006))
    } else if peer.message != 0x80 {
        Some(write(0x62, 2, 0x8000))
    } else {
        let masked = hub.entries_of(id).iter().position(|entry| entry.control == 1)?;
        Some(Call::MsixWrite { id, offset: 16 * masked as u64 + 12, width: 4, value: 0 })
    }
}

/// Whether this is another's call that surely gives no item on this hub.
fn gives_nothing(plan: &Plan, hub: &Hub, event: &Event) -> bool {
    let Event::Call(call, lengths) = event else { return false };
    let Some(id) = sender(event).filter(|id| *id != plan.of) else { return false };
    let Some(peer) = hub.peers.get(id as usize) else { return true };
    let away = peer.connected == 0 || lengths.words != 0 || lengths.region != 0;
    match *call {
        Call::Store { .. } | Call::RegisterWrite { .. } | Call::Reset { .. } | Call::Disconnect { .. } if away => true,
        Call::Store { offset, length, .. } => length == 0 || offset < hub.numbers.state_table,
        Call::RegisterWrite { .. } if peer.command & 2 == 0 => true,
        Call::RegisterWrite { offset: register::DOORBELL, value, .. } => u64::from(value >> 16) != plan.of,
        Call::RegisterWrite { offset: register::STATE, value, .. } => value == peer.state,
        Call::Reset { .. } | Call::Disconnect { .. } => peer.state == 0,
        _ => true,
    }
}
