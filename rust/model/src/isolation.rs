//! Isolation (R72) on a subject: pairs of histories from the same set-up with equal windows of a peer, in which all that the
//! peer is answered and gets must be equal, and at the end its registers and the region. It is proved of the library; here it
//! is checked on the linked one, across the boundary.

use std::fmt;

use ivshmem::{Delivery, Settings};

use crate::call::{Call, Event};
use crate::hub::{Hub, MAX_PEERS};
use crate::layout::{decode, interrupt_word};
use crate::pairs::{Maker, Plan, Step, sender};
use crate::subject::{Answer, Subject};
use crate::window::{ITEMS, Window};
use crate::world::World;

/// What the peer observes (R67), in one list: the answers to its calls, and after each call the deliveries to it. An answer is
/// "number, value, section answer, bytes of an accepted load"; the count is the host's alone.
#[derive(Clone, Debug, PartialEq, Eq)]
enum Seen {
    Answer(Answer, Vec<u8>),
    Delivered(Delivery),
}

/// A history as it happens.
struct Run<'w, S> {
    subject: S,
    world: &'w mut World,
    of: u64,
    window: Window,
    steps: Vec<Step>,
    seen: Vec<Seen>,
    /// Calls of others, deliveries to others, and deliveries to the peer that cleared its Interrupt Control.
    others: u64,
    elsewhere: Vec<Delivery>,
    cleared: u64,
}

impl<S: Subject> Run<'_, S> {
    fn new<'w>(mut subject: S, world: &'w mut World, settings: &Settings, of: u64) -> Run<'w, S> {
        let answer = world.apply(&mut subject, &Call::SetUp(*settings).into());
        assert_eq!(answer.map(|answer| answer.number), Some(0), "the set-up is accepted");
        let window = Window::new(of, settings.peers);
        let (steps, seen, elsewhere) = (Vec::new(), Vec::new(), Vec::new());
        Run { subject, world, of, window, steps, seen, others: 0, elsewhere, cleared: 0 }
    }

    fn hub(&self) -> Hub {
        decode(self.world.hub_words()).expect("the words of the set-up")
    }

    fn apply(&mut self, event: Event) {
        let control = |world: &World| world.hub_words()[interrupt_word(self.of)];
        let before = control(self.world);
        let answer = self.world.apply(&mut self.subject, &event).expect("a call has an answer");
        let delivered = &self.world.table()[..answer.count];
        let own = sender(&event) == Some(self.of);
        if own {
            let load = matches!(event, Event::Call(Call::Load { .. }, _)) && answer.number == 0;
            let bytes = if load { self.world.buffer().to_vec() } else { Vec::new() };
            self.seen.push(Seen::Answer(Answer { count: 0, ..answer }, bytes));
        }
        let (here, elsewhere): (Vec<_>, Vec<_>) = delivered.iter().partition(|to| u64::from(to.target.0) == self.of);
        self.others += u64::from(!own);
        self.cleared += u64::from(!here.is_empty() && before == 1 && control(self.world) == 0);
        self.seen.extend(here.into_iter().map(Seen::Delivered));
        self.elsewhere.extend(elsewhere);
        let item = self.window.take(&event, answer.number == 0).cloned();
        self.steps.push(Step { event, item });
    }

    /// Reads all that the peer can read, the last part with Command bit 1 on.
    fn sweep(&mut self, settings: &Settings) {
        let id = self.of;
        for offset in (0..256).step_by(4) {
            self.apply(Call::ConfigurationRead { id, offset, width: 4 }.into());
        }
        self.apply(Call::ConfigurationWrite { id, offset: 0x04, width: 1, value: 0x02 }.into());
        for offset in (0..0x18).step_by(4) {
            self.apply(Call::RegisterRead { id, offset, width: 4 }.into());
        }
        for offset in (0..16 * settings.vectors + 4).step_by(4).chain([0x800]) {
            self.apply(Call::MsixRead { id, offset, width: 4 }.into());
        }
    }
}

/// What a peer must not be able to tell apart, and can: two histories with equal windows, cut short.
#[derive(Debug)]
pub struct Leak {
    pub settings: Settings,
    pub of: u64,
    pub histories: [Vec<Event>; 2],
    /// What differs.
    pub difference: String,
    /// How long the histories were before they were cut.
    pub found_after: [usize; 2],
}

impl fmt::Display for Leak {
    fn fmt(&self, f: &mut fmt::Formatter<'_>) -> fmt::Result {
        let [first, second] = self.found_after;
        writeln!(f, "two histories that are the same to peer {}, cut from {first} and {second} calls:", self.of)?;
        writeln!(f, "      {}", Call::SetUp(self.settings))?;
        for (name, history) in ["first", "second"].into_iter().zip(&self.histories) {
            writeln!(f, "the {name}:")?;
            for (at, event) in history.iter().enumerate() {
                writeln!(f, "{:>4}. {event}", at + 1)?;
            }
        }
        write!(f, "then {}", self.difference)
    }
}

/// What has been seen in the pairs with equal windows.
#[derive(Clone, Debug, Default)]
pub struct Tally {
    /// Pairs with other windows, and those of them that the peer can tell apart.
    pub unequal: u64,
    pub told_apart: u64,
    /// Pairs with equal windows.
    pub pairs: u64,
    /// Their calls, and of these the calls by and on others.
    pub calls: u64,
    pub others: u64,
    /// Items of their windows, in the order of [`ITEMS`].
    pub items: [u64; 4],
    /// Deliveries to the peer, and those that cleared its Interrupt Control.
    pub deliveries: u64,
    pub cleared: u64,
    /// Own calls that were accepted, and that were refused.
    pub answers: [u64; 2],
    /// Own loads of bytes that are not all zero.
    pub loads: u64,
    /// Pairs in which the calls of others are not as many, in which the deliveries to others differ, and in which an item was
    /// sent by another peer.
    pub other_numbers: u64,
    pub other_deliveries: u64,
    pub other_senders: u64,
    /// Pairs in which the peer has Command bit 1 off at the end, or is away.
    pub hidden: u64,
    /// Pairs on hubs of 64 peers.
    pub large: u64,
}

impl Tally {
    /// Takes in a pair before it is swept.
    fn add<S: Subject>(&mut self, plan: &Plan, first: &Run<'_, S>, second: &Run<'_, S>) {
        self.pairs += 1;
        for run in [first, second] {
            self.calls += run.steps.len() as u64;
            self.others += run.others;
            self.cleared += run.cleared;
            for item in &run.window.items {
                self.items[item.kind()] += 1;
            }
            for seen in &run.seen {
                match seen {
                    Seen::Answer(answer, bytes) => {
                        self.answers[usize::from(answer.number != 0)] += 1;
                        self.loads += u64::from(bytes.iter().any(|&byte| byte != 0));
                    }
                    Seen::Delivered(_) => self.deliveries += 1,
                }
            }
        }
        let senders = |run: &Run<'_, S>| {
            run.steps.iter().filter(|step| step.item.is_some()).map(|step| sender(&step.event)).collect::<Vec<_>>()
        };
        self.other_numbers += u64::from(first.others != second.others);
        self.other_deliveries += u64::from(first.elsewhere != second.elsewhere);
        self.other_senders += u64::from(senders(first) != senders(second));
        self.hidden += u64::from(first.hub().peers[plan.of as usize].command & 2 == 0);
        self.large += u64::from(plan.settings.peers == MAX_PEERS as u64);
    }
}

impl fmt::Display for Tally {
    fn fmt(&self, f: &mut fmt::Formatter<'_>) -> fmt::Result {
        writeln!(f, "isolation: {} pairs of histories with equal windows", self.pairs)?;
        writeln!(f, "pairs with other windows: {}, told apart: {}", self.unequal, self.told_apart)?;
        writeln!(f, "calls in the equal ones: {}, of others: {}", self.calls, self.others)?;
        for (name, count) in ITEMS.iter().zip(self.items) {
            writeln!(f, "items of windows, {name}: {count}")?;
        }
        writeln!(f, "deliveries to the peer: {}, clearing its Interrupt Control: {}", self.deliveries, self.cleared)?;
        let [accepted, refused] = self.answers;
        writeln!(f, "answers to the peer: {accepted} accepted, {refused} refused; loads not of zeros: {}", self.loads)?;
        writeln!(f, "pairs with other numbers of calls of others: {}", self.other_numbers)?;
        writeln!(f, "pairs with other deliveries to others: {}", self.other_deliveries)?;
        writeln!(f, "pairs with items sent by other peers: {}", self.other_senders)?;
        writeln!(f, "pairs with Command bit 1 off at the end: {}", self.hidden)?;
        write!(f, "pairs on hubs of 64 peers: {}", self.large)
    }
}

/// Isolation (R72) after the last calls of two histories with equal windows: the first difference, in words.
fn difference<S: Subject>(settings: &Settings, first: &mut Run<'_, S>, second: &mut Run<'_, S>) -> Option<String> {
    let of = first.of;
    if let Some(text) = seen_differently(&first.seen, &second.seen) {
        return Some(text);
    }
    let (left, right) = (first.hub(), second.hub());
    let registers = |hub: &Hub| (hub.peers[of as usize], hub.entries_of(of).to_vec());
    if left.numbers != right.numbers || registers(&left) != registers(&right) {
        return Some(format!("the registers are {:x?} and {:x?}", registers(&left), registers(&right)));
    }
    if first.world.region() != second.world.region() {
        let mut bytes = first.world.region().iter().zip(second.world.region());
        return Some(format!("the regions differ at {:?}", bytes.position(|(left, right)| left != right)));
    }
    first.sweep(settings);
    second.sweep(settings);
    seen_differently(&first.seen, &second.seen)
}

fn seen_differently(left: &[Seen], right: &[Seen]) -> Option<String> {
    if left == right {
        return None;
    }
    let at = left.iter().zip(right).position(|(left, right)| left != right).unwrap_or(left.len().min(right.len()));
    Some(format!("what the peer sees at place {at} is {:x?} and {:x?}", left.get(at), right.get(at)))
}

/// Replays two histories. Where the windows are equal and isolation (R72) does not hold: the difference, and the places of the
/// items in each.
fn replay<S: Subject>(make: &impl Fn() -> S, leak: &Leak) -> Option<(String, [Vec<usize>; 2])> {
    let mut worlds = [World::default(), World::default()];
    let mut runs = worlds.each_mut().map(|world| Run::new(make(), world, &leak.settings, leak.of));
    for (run, history) in runs.iter_mut().zip(&leak.histories) {
        history.iter().for_each(|event| run.apply(event.clone()));
    }
    let places = runs.each_ref().map(|run| (0..run.steps.len()).filter(|at| run.steps[*at].item.is_some()).collect());
    let [first, second] = &mut runs;
    if first.window.items != second.window.items {
        return None;
    }
    difference(&leak.settings, first, second).map(|text| (text, places))
}

/// Leaves out calls of either history that give no item, and items of both, as long as the leak shows.
fn cut<S: Subject>(make: &impl Fn() -> S, leak: &mut Leak) {
    let try_without = |leak: &mut Leak, places: [Option<usize>; 2]| {
        let before = leak.histories.clone();
        for (history, place) in leak.histories.iter_mut().zip(places) {
            place.map(|at| history.remove(at));
        }
        let Some((text, _)) = replay(make, leak) else {
            leak.histories = before;
            return false;
        };
        leak.difference = text;
        true
    };
    let mut shorter = true;
    while shorter {
        shorter = false;
        for at in (0..leak.histories[0].len()).rev() {
            shorter |= try_without(leak, [Some(at), None]);
        }
        for at in (0..leak.histories[1].len()).rev() {
            shorter |= try_without(leak, [None, Some(at)]);
        }
        let Some((_, [first, second])) = replay(make, leak) else { return };
        for (left, right) in first.into_iter().zip(second).rev() {
            shorter |= try_without(leak, [Some(left), Some(right)]);
        }
    }
}

/// Makes so many pairs of histories, runs them, and compares those with equal windows.
///
/// # Errors
/// The first pair that the peer can tell apart, cut short.
pub fn run<S: Subject>(make: impl Fn() -> S, seed: u64, pairs: u64) -> Result<Tally, Box<Leak>> {
    let mut maker = Maker::new(seed);
    let mut tally = Tally::default();
    let mut worlds = [World::default(), World::default()];
    for _ in 0..pairs {
        let plan = maker.plan();
        let [mut first, mut second] = worlds.each_mut().map(|world| Run::new(make(), world, &plan.settings, plan.of));
        write_first(&mut maker, &plan, &mut first);
        write_second(&mut maker, &plan, &first.steps, &mut second);
        if first.window.items != second.window.items {
            tally.unequal += 1;
            tally.told_apart += u64::from(difference(&plan.settings, &mut first, &mut second).is_some());
            continue;
        }
        tally.add(&plan, &first, &second);
        let histories =
            [&first, &second].map(|run| run.steps.iter().map(|step| step.event.clone()).collect::<Vec<_>>());
        if let Some(difference) = difference(&plan.settings, &mut first, &mut second) {
            let found_after = histories.each_ref().map(Vec::len);
            let mut leak = Leak { settings: plan.settings, of: plan.of, histories, difference, found_after };
            cut(&make, &mut leak);
            return Err(leak.into());
        }
    }
    Ok(tally)
}

fn write_first<S: Subject>(maker: &mut Maker, plan: &Plan, run: &mut Run<'_, S>) {
    let mut planned = maker.beginning(plan).into_iter();
    for _ in 0..plan.calls {
        let event = planned.next().unwrap_or_else(|| maker.any(plan, &run.hub()));
        run.apply(event);
    }
}

/// For each item of the first history the calls up to it and itself, as they stand in the second.
fn write_second<S: Subject>(maker: &mut Maker, plan: &Plan, steps: &[Step], run: &mut Run<'_, S>) {
    for part in steps.split_inclusive(|step| step.item.is_some()) {
        maker.rewrite(plan, part, |event| {
            if let Some(event) = event {
                run.apply(event);
            }
            run.hub()
        });
    }
}
