//! One million changed State stores, in one run on one hub: 64 peers by 16 vectors, all connected, one-shot off. Only the
//! receivers have all switches on, the others have Interrupt Control off; who stores is no receiver. The devices take turns,
//! as in [`measure`](crate::measure), and a run is spread over the same places of the stack.

use std::borrow::BorrowMut;
use std::hint::black_box;
use std::time::{Duration, Instant};

use ivshmem::{Delivery, MAX_PEERS, register};
use model::call::Call;
use model::subject::Answer;

use crate::cases::{Size, booted};
use crate::device::{Device, Lending, Library, Nothing};
use crate::measure::{PASSES, POSITIONS, Pass, Row, YARDSTICKS, median};
use crate::state::Form;
use crate::yardstick::{PlainStruct, WordsAccumulating, WordsEarlyExit, WordsSpecialised};

/// Stores of a run, and how often the devices take turns at each place of the stack.
const STORES: usize = 1_000_000;
const TURNS: usize = 10;
/// Stores that are compared before any is timed.
const COMPARED: usize = 1_000;

/// Who receives.
struct Receivers {
    name: String,
    receives: fn(u64) -> bool,
    empty: bool,
}

/// Four of the peers, spread over all ids.
fn every_sixteenth(id: u64) -> bool {
    id % 16 == 15
}

impl Receivers {
    fn new(name: &str, receives: fn(u64) -> bool) -> Receivers {
        Receivers { name: name.into(), receives, empty: false }
    }

    fn ids(&self, receiving: bool) -> Vec<u64> {
        (0..Size::LARGEST.peers).filter(|&id| (self.receives)(id) == receiving).collect()
    }
}

/// A device with its hub, and how many stores it has made.
struct Host<D: Device> {
    hub: <D::Hub as Form>::Owned,
    region: Vec<u8>,
    table: [Delivery; MAX_PEERS],
    made: u32,
}

/// All that is left after some stores: hub, region and table.
type Left = (Vec<u32>, Vec<u8>, [Delivery; MAX_PEERS]);

trait Storing {
    /// Makes so many stores, by the senders in turn; the time that they take.
    fn time(&mut self, senders: &[u64], stores: usize) -> Duration;
    /// The same without a clock: each store's number and count of deliveries, and what is left.
    fn trace(&mut self, senders: &[u64], stores: usize) -> (Vec<(u32, usize)>, Left);
}

impl<D: Device> Host<D> {
    fn new(receivers: &Receivers) -> Host<D> {
        let settings = Size::LARGEST.settings();
        let region = vec![0; settings.total().expect("a small region")];
        let hub = D::Hub::owned(&booted(&settings, receivers.receives));
        Host { hub, region, table: [Delivery::default(); MAX_PEERS], made: 0 }
    }

    /// Every store has a value that no other has had.
    #[inline(always)]
    fn make(&mut self, senders: &[u64], stores: usize, mut answered: impl FnMut(&Answer)) {
        for (&id, value) in senders.iter().cycle().zip(self.made + 1..).take(stores) {
            let call = Call::RegisterWrite { id, offset: register::STATE, width: 4, value };
            let lending = Lending { region: &mut self.region, table: &mut self.table, buffer: &mut [] };
            answered(&D::perform(black_box(self.hub.borrow_mut()), black_box(&call), lending));
        }
        self.made += stores as u32;
    }
}

impl<D: Device> Storing for Host<D> {
    fn time(&mut self, senders: &[u64], stores: usize) -> Duration {
        let start = Instant::now();
        self.make(senders, stores, |answer| {
            black_box(answer);
        });
        start.elapsed()
    }

    fn trace(&mut self, senders: &[u64], stores: usize) -> (Vec<(u32, usize)>, Left) {
        let mut answers = Vec::new();
        self.make(senders, stores, |answer| answers.push((answer.number, answer.count)));
        (answers, (D::Hub::words(&self.hub), self.region.clone(), self.table))
    }
}

fn hosts(receivers: &Receivers) -> Vec<Box<dyn Storing>> {
    if receivers.empty {
        return vec![Box::new(Host::<Nothing>::new(receivers))];
    }
    vec![
        Box::new(Host::<Library>::new(receivers)),
        Box::new(Host::<PlainStruct>::new(receivers)),
        Box::new(Host::<WordsEarlyExit>::new(receivers)),
        Box::new(Host::<WordsAccumulating>::new(receivers)),
        Box::new(Host::<WordsSpecialised>::new(receivers)),
    ]
}

/// Ends the program where a yardstick does not leave what the library leaves, or not all receivers get every store.
fn check(receivers: &Receivers) {
    let senders = receivers.ids(false);
    let traces: Vec<_> = hosts(receivers).iter_mut().map(|host| host.trace(&senders, COMPARED)).collect();
    let delivered = if receivers.empty { 0 } else { receivers.ids(true).len() };
    assert_eq!(traces[0].0, vec![(0, delivered); COMPARED], "{}", receivers.name);
    for (name, trace) in YARDSTICKS.iter().zip(&traces[1..]) {
        assert!(*trace == traces[0], "{}: {name} differs from the library", receivers.name);
    }
}

/// One run of every device.
fn run(hosts: &mut [Box<dyn Storing>], senders: &[u64]) -> Pass {
    let mut sums = vec![Duration::ZERO; hosts.len()];
    for position in POSITIONS {
        for _ in 0..TURNS {
            for (sum, host) in sums.iter_mut().zip(&mut *hosts) {
                *sum += position(&mut || host.time(senders, STORES / POSITIONS.len() / TURNS));
            }
        }
    }
    sums.into_iter().map(|sum| sum.as_nanos() as f64 / STORES as f64).collect()
}

fn measure(receivers: &Receivers) -> Row {
    let (mut hosts, senders) = (hosts(receivers), receivers.ids(false));
    let passes: Vec<Pass> = (0..PASSES).map(|_| run(&mut hosts, &senders)).collect();
    let middle = |device: usize| median(passes.iter().map(|pass| pass[device]).collect());
    // What is compared is the median run of each device.
    let ratios = (1..hosts.len()).map(|yardstick| middle(0) / middle(yardstick)).collect();
    Row { ratios, ..Row::new(&receivers.name, STORES, &passes) }
}

/// The rows: an empty call, then 4 and 60 receivers.
#[must_use]
pub fn measure_all() -> Vec<Row> {
    let rows = [
        Receivers { empty: true, ..Receivers::new("empty call", every_sixteenth) },
        Receivers::new("changed State store, 4 of 64 receive", every_sixteenth),
        Receivers::new("changed State store, 60 of 64 receive", |id| !every_sixteenth(id)),
    ];
    rows.iter().for_each(check);
    rows.iter().map(measure).collect()
}
