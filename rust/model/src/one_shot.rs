//! One-shot mode over stretches of histories (R73). While a connected peer has it on, the interrupts that the peer gets, its
//! Interrupt Control as it stands and its own clears of it add up to its own sets and Interrupt Control at the start. The
//! library is proved to keep this balance; here it is checked on the linked library, after every call.
//!
//! A device that kept a lost ring and delivered it at the next set would be in balance too: that nothing is kept is proved
//! apart, and the comparison with the model finds it.

use std::fmt;

use ivshmem::{Delivery, register};

use crate::call::{Call, Event};
use crate::generate::Generator;
use crate::hub::{Hub, MAX_PEERS, Peer};
use crate::layout::decode;
use crate::subject::Subject;
use crate::world::World;

/// What a run has seen. A stretch is as long as a peer stays connected with one-shot on, or with it off. A reset turns it
/// off, and does not end a stretch in which it is off.
#[derive(Clone, Copy, Debug, Default)]
pub struct Tally {
    /// All calls, refused ones and set-ups among them.
    pub calls: u64,
    /// Stretches with one-shot on.
    pub stretches: u64,
    /// Balances checked: a call, and a peer in such a stretch.
    pub checks: u64,
    /// In such stretches, interrupts that a doorbell brought, and that a State store, reset or disconnect brought.
    pub interrupts: [u64; 2],
    /// Doorbells at the peer and one of its vectors that met Interrupt Control 0.
    pub lost: u64,
    /// The peer's own stores that turned Interrupt Control from 0 to 1, and from 1 to 0.
    pub sets: u64,
    pub clears: u64,
    /// Calls by or on the peer that were refused.
    pub refused: u64,
    /// Stretches with as many interrupts, at some time, as the bound allows, and one at least: from Interrupt Control 0 and 1.
    pub reached: [u64; 2],
    /// Stretches with one-shot off in which the bound was exceeded.
    pub exceeded: u64,
}

impl fmt::Display for Tally {
    fn fmt(&self, f: &mut fmt::Formatter<'_>) -> fmt::Result {
        writeln!(f, "one-shot: {} calls, {} stretches, {} balances checked", self.calls, self.stretches, self.checks)?;
        let [bells, others] = self.interrupts;
        writeln!(f, "interrupts by doorbells: {bells}, by State stores, resets and disconnects: {others}")?;
        writeln!(f, "doorbells lost at Interrupt Control 0: {}", self.lost)?;
        writeln!(f, "own stores from 0 to 1: {}, from 1 to 0: {}", self.sets, self.clears)?;
        writeln!(f, "refused calls by or on the peer: {}", self.refused)?;
        let [zero, one] = self.reached;
        writeln!(f, "stretches in which the bound was reached, from 0: {zero}, from 1: {one}")?;
        write!(f, "stretches with one-shot off in which it was exceeded: {}", self.exceeded)
    }
}

/// One peer since its stretch began.
#[derive(Clone, Copy)]
struct Stretch {
    one_shot: bool,
    start: u32,
    interrupts: u64,
    sets: u64,
    clears: u64,
    /// The bound was reached or, with one-shot off, exceeded.
    noted: bool,
}

impl Stretch {
    fn from(peer: &Peer) -> Option<Stretch> {
        let fresh = Stretch {
            one_shot: peer.privileged & 1 == 1,
            start: peer.interrupt,
            interrupts: 0,
            sets: 0,
            clears: 0,
            noted: false,
        };
        (peer.connected == 1).then_some(fresh)
    }

    fn bound(&self) -> u64 {
        self.sets + u64::from(self.start)
    }

    fn balanced(&self, control: u32) -> bool {
        self.interrupts + u64::from(control) + self.clears == self.bound()
    }
}

/// One call: what it met, what it was answered and what it left.
struct Seen<'a> {
    call: &'a Call,
    accepted: bool,
    before: &'a Hub,
    after: &'a Hub,
    delivered: &'a [Delivery],
}

impl Seen<'_> {
    /// An accepted store to a register that does something: by whom, where, and the value.
    fn store(&self) -> Option<(u64, u64, u32)> {
        match *self.call {
            Call::RegisterWrite { id, offset, value, .. }
                if self.accepted && self.before.peers[id as usize].command & 2 != 0 =>
            {
                Some((id, offset, value))
            }
            _ => None,
        }
    }

    /// What the call means to one peer.
    fn share(&self, id: usize) -> Share {
        let before = &self.before.peers[id];
        let control = match self.store() {
            Some((by, register::INTERRUPT_CONTROL, value)) if by == id as u64 => Some(value & 1),
            _ => None,
        };
        let bell = match self.store() {
            Some((_, register::DOORBELL, value)) => {
                value >> 16 == id as u32 && u64::from(value & 0xffff) < self.before.numbers.vectors
            }
            _ => false,
        };
        Share {
            interrupts: self.delivered.iter().filter(|delivery| delivery.target.0 as usize == id).count() as u64,
            set: before.interrupt == 0 && control == Some(1),
            clear: before.interrupt == 1 && control == Some(0),
            bell,
            lost: bell && before.interrupt == 0,
            refused: !self.accepted && self.call.peer() == Some(id as u64),
        }
    }
}

/// What one call means to one peer.
struct Share {
    interrupts: u64,
    /// Its own store turned Interrupt Control from 0 to 1, or from 1 to 0.
    set: bool,
    clear: bool,
    /// A doorbell was rung at the peer, and met Interrupt Control 0.
    bell: bool,
    lost: bool,
    /// The call was by or on the peer and was refused.
    refused: bool,
}

/// The stretches of a hub's peers.
struct Watch {
    peers: [Option<Stretch>; MAX_PEERS],
    tally: Tally,
}

impl Watch {
    fn new() -> Watch {
        Watch { peers: [None; MAX_PEERS], tally: Tally::default() }
    }

    /// Takes in one call.
    fn take(&mut self, seen: &Seen<'_>) -> Result<(), String> {
        self.tally.calls += 1;
        if let Call::SetUp(_) = seen.call {
            self.peers = [None; MAX_PEERS];
        }
        (0..MAX_PEERS).try_for_each(|id| self.take_peer(id, seen))
    }

    fn take_peer(&mut self, id: usize, seen: &Seen<'_>) -> Result<(), String> {
        let now = seen.after.peers.get(id).and_then(Stretch::from);
        let Some(mut stretch) = self.peers[id].filter(|old| now.is_some_and(|new| new.one_shot == old.one_shot)) else {
            self.tally.stretches += u64::from(now.is_some_and(|new| new.one_shot));
            self.peers[id] = now;
            return Ok(());
        };
        let (share, after) = (seen.share(id), &seen.after.peers[id]);
        stretch.interrupts += share.interrupts;
        stretch.sets += u64::from(share.set);
        stretch.clears += u64::from(share.clear);
        if stretch.one_shot {
            self.count(&share);
            if !stretch.balanced(after.interrupt) {
                return Err(out_of_balance(id, &stretch, after.interrupt, seen.call));
            }
        }
        self.note(&mut stretch);
        self.peers[id] = Some(stretch);
        Ok(())
    }

    fn count(&mut self, share: &Share) {
        self.tally.checks += 1;
        self.tally.interrupts[usize::from(!share.bell)] += share.interrupts;
        self.tally.lost += u64::from(share.lost);
        self.tally.sets += u64::from(share.set);
        self.tally.clears += u64::from(share.clear);
        self.tally.refused += u64::from(share.refused);
    }

    /// Counts a stretch once, when it reaches the bound, or exceeds it with one-shot off.
    fn note(&mut self, stretch: &mut Stretch) {
        let reached = stretch.interrupts > 0 && stretch.interrupts == stretch.bound();
        let exceeded = stretch.interrupts > stretch.bound();
        if stretch.noted || !(if stretch.one_shot { reached } else { exceeded }) {
            return;
        }
        stretch.noted = true;
        if stretch.one_shot {
            self.tally.reached[usize::from(stretch.start != 0)] += 1;
        } else {
            self.tally.exceeded += 1;
        }
    }
}

fn out_of_balance(id: usize, stretch: &Stretch, control: u32, call: &Call) -> String {
    format!(
        "after '{call}' peer {id} has got {} interrupts, Interrupt Control is {control}, was {} at the start of the stretch, \
         and was set {} times and cleared {} times by the peer itself",
        stretch.interrupts, stretch.start, stretch.sets, stretch.clears
    )
}

/// Makes `calls` calls or a few more in random histories. Memory that breaks is no part of a history, so only calls are made.
///
/// # Errors
/// The first stretch that is out of balance, in words.
pub fn run<S: Subject>(make: impl Fn() -> S, seed: u64, calls: u64) -> Result<Tally, String> {
    let mut generator = Generator::new(seed);
    let mut watch = Watch::new();
    while watch.tally.calls < calls {
        let (mut subject, mut world) = (make(), World::default());
        watch.peers = [None; MAX_PEERS];
        generator.begin();
        while !generator.finished() {
            let before = decode(world.hub_words()).unwrap_or(Hub::NONE);
            let event = generator.next(&before, world.total());
            let Event::Call(call, _) = &event else { continue };
            let answer = world.apply(&mut subject, &event).expect("a call has an answer");
            let after = decode(world.hub_words()).unwrap_or(Hub::NONE);
            let delivered = &world.table()[..answer.count];
            watch.take(&Seen { call, accepted: answer.number == 0, before: &before, after: &after, delivered })?;
        }
    }
    Ok(watch.tally)
}
