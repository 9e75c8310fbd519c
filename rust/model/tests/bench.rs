//! The cases of the rules' bench, on the model and the library at once.

use ivshmem::{Delivery, PeerId, Refusal, Settings, Vector, hub_words};
use model::call::{Call, Event, Lengths};
use model::compare::Pair;
use model::count::Counts;
use model::layout::{BASE_WORDS, state_word};
use model::subject::{Answer, Library};

struct Bench(Pair<Library>);

impl Bench {
    fn new(settings: Settings, connected: &[u64]) -> Bench {
        let mut bench = Bench(Pair::new(Library));
        assert_eq!(bench.number(Call::SetUp(settings)), 0);
        for &id in connected {
            assert_eq!(bench.number(Call::Connect { id }), 0);
        }
        bench
    }

    fn answer(&mut self, event: impl Into<Event>) -> Answer {
        let answer = self.0.apply(&event.into(), &mut Counts::default()).expect("library and model agree");
        answer.expect("a call has an answer")
    }

    fn number(&mut self, call: Call) -> u32 {
        self.answer(call).number
    }

    fn read(&mut self, offset: u64) -> u32 {
        self.answer(Call::ConfigurationRead { id: 0, offset, width: 4 }).value
    }

    fn write(&mut self, id: u64, offset: u64, width: u64, value: u32) {
        assert_eq!(self.number(Call::ConfigurationWrite { id, offset, width, value }), 0);
    }

    fn register(&mut self, id: u64, offset: u64, value: u32) -> Vec<Delivery> {
        let answer = self.answer(Call::RegisterWrite { id, offset, width: 4, value });
        assert_eq!(answer.number, 0);
        self.0.world().table()[..answer.count].to_vec()
    }

    /// All switches on, and entry 0 with this data.
    fn switch_on(&mut self, id: u64, data: u32) {
        self.write(id, 0x04, 2, 0x0006);
        self.write(id, 0x62, 2, 0x8000);
        for (offset, value) in [(0, 0xfee0_0000), (8, data), (12, 0)] {
            assert_eq!(self.number(Call::MsixWrite { id, offset, width: 4, value }), 0);
        }
        assert_eq!(self.register(id, 0x08, 1), []);
    }
}

fn four_peers(vectors: u64) -> Settings {
    Settings { peers: 4, vectors, state_table: 4096, protocol: 0x0001, ..Settings::default() }
}

#[test]
fn fresh_peer() {
    let mut bench = Bench::new(four_peers(4), &[0]);
    let expected = [(0x00, 0x4106_110a), (0x08, 0xff00_0100), (0x40, 0x0020_6009), (0x60, 0x0003_0011)];
    for (offset, value) in expected {
        assert_eq!(bench.read(offset), value, "at {offset:#x}");
    }
}

#[test]
fn writes_change_only_what_can_be_written() {
    let mut bench = Bench::new(four_peers(4), &[0]);
    bench.write(0, 0x04, 2, 0xffff);
    assert_eq!(bench.read(0x04), 0x0010_0406);
    bench.write(0, 0x10, 4, 0xffff_ffff);
    assert_eq!(bench.read(0x10), 0xffff_f000);
    bench.write(0, 0x60, 4, 0xffff_ffff);
    assert_eq!(bench.read(0x60), 0xc003_0011);
    bench.write(0, 0x40, 4, 0xffff_ffff);
    assert_eq!(bench.read(0x40), 0x0120_6009);
}

#[test]
fn command_hides_the_registers() {
    let mut bench = Bench::new(four_peers(4), &[0]);
    let peers = Call::RegisterRead { id: 0, offset: 0x04, width: 4 };
    assert_eq!(bench.answer(peers.clone()).value, 0xffff_ffff);
    bench.write(0, 0x04, 2, 0x0002);
    assert_eq!(bench.answer(peers).value, 4);
}

#[test]
fn doorbell_names_vector_and_id() {
    let mut bench = Bench::new(four_peers(2), &[0, 3]);
    bench.switch_on(0, 0x40);
    bench.switch_on(3, 0x43);
    for (offset, value) in [(0x18, 0x99), (0x1c, 0)] {
        assert_eq!(bench.number(Call::MsixWrite { id: 3, offset, width: 4, value }), 0);
    }
    let delivered = Delivery { address: 0, data: 0x99, target: PeerId(3), vector: Vector(1) };
    assert_eq!(bench.register(0, 0x0c, 0x0003_0001), [delivered]);
}

#[test]
fn stores_keep_to_the_sections() {
    let settings = Settings { peers: 2, vectors: 1, state_table: 4096, output: 4096, ..Settings::default() };
    let mut bench = Bench::new(settings, &[0, 1]);
    let mut store = |id, offset, length| bench.number(Call::Store { id, offset, length, fill: 7 });
    assert_eq!(store(1, 8192, 4096), 0);
    assert_eq!(store(0, 8192, 4096), 9);
    assert_eq!(store(1, 8191, 2), 8);
    assert_eq!(store(1, 8192, 0), 6);
}

#[test]
fn edges_of_configuration_space() {
    let mut bench = Bench::new(four_peers(4), &[0]);
    for (offset, width, number) in [(255, 1, 0), (254, 4, 7), (256, 4, 8)] {
        assert_eq!(bench.number(Call::ConfigurationRead { id: 0, offset, width }), number);
    }
}

#[test]
fn whole_list() {
    let mut bench = Bench::new(four_peers(2), &[0, 1, 3]);
    bench.switch_on(0, 0x40);
    bench.switch_on(3, 0x43);
    bench.write(3, 0x43, 1, 1);
    bench.write(1, 0x04, 2, 0x0002);

    let to = |id, data| Delivery { address: 0xfee0_0000, data, target: PeerId(id), vector: Vector(0) };
    assert_eq!(bench.register(1, 0x10, 5), [to(0, 0x40), to(3, 0x43)]);
    assert_eq!(bench.0.world().region()[4..8], [5, 0, 0, 0]);
    assert_eq!(bench.answer(Call::RegisterRead { id: 3, offset: 0x08, width: 4 }).value, 0);
    // R55: the second store of 5 changes nothing, so nobody is rung (C-11).
    assert_eq!(bench.register(1, 0x10, 5), []);
    assert_eq!(bench.register(1, 0x10, 6), [to(0, 0x40)]);
}

/// C-11: a State store, a reset and a disconnect ring only where the peer's State register changes. The State Table entry
/// takes the value in any case, and what it held before does not matter.
#[test]
fn state_that_changes_and_that_does_not() {
    let to_zero = Delivery { address: 0xfee0_0000, data: 0x40, target: PeerId(0), vector: Vector(0) };
    let store = Call::RegisterWrite { id: 1, offset: 0x10, width: 4, value: 5 };
    for (call, value) in [(store, 5), (Call::Reset { id: 1 }, 0), (Call::Disconnect { id: 1 }, 0)] {
        for (register, entry) in [(0, 0), (0, 5), (5, 0), (5, 5), (0x0100_0005, 5), (5, 0x0100_0005)] {
            let mut bench = Bench::new(four_peers(2), &[0, 1]);
            bench.switch_on(0, 0x40);
            bench.switch_on(1, 0x41);
            bench.register(1, 0x10, entry);
            bench
                .0
                .apply(&Event::Flip { word: state_word(1), bits: entry ^ register }, &mut Counts::default())
                .unwrap();
            let answer = bench.answer(call.clone());
            let rung: &[Delivery] = if register == value { &[] } else { &[to_zero] };
            assert_eq!(bench.0.world().table()[..answer.count], *rung, "{call} with State {register}, entry {entry}");
            assert_eq!(bench.0.world().region()[4..8], value.to_le_bytes());
        }
    }
}

#[test]
fn numbers_accepted_at_set_up() {
    let good = four_peers(4);
    let number = |settings: Settings| Bench(Pair::new(Library)).number(Call::SetUp(settings));
    for (peers, expected) in [(1, 1), (2, 0), (8, 0), (9, 0), (64, 0), (65, 1)] {
        assert_eq!(number(Settings { peers, ..good }), expected);
    }
    for (vectors, expected) in [(0, 1), (1, 0), (4, 0), (5, 0), (16, 0), (17, 1)] {
        assert_eq!(number(Settings { vectors, ..good }), expected);
    }
    for (state_table, expected) in [(0, 1), (4096, 0), (4100, 1)] {
        assert_eq!(number(Settings { state_table, ..good }), expected);
    }
    // The region that is lent is not so long: 2 where the numbers are taken, 1 where they are not.
    for (read_write, expected) in [((1 << 30) - 4096, 2), (1 << 30, 1)] {
        assert_eq!(number(Settings { read_write, ..good }), expected);
    }
    let last = u64::MAX - 4095;
    for (base, state_table, expected) in [
        (0, 4096, 1),
        (0xf_f000, 4096, 1),
        (0xf_f000, 8192, 1),
        (0x10_0000, 4096, 0),
        (0x10_0001, 4096, 1),
        (0x10_1000, 4096, 0),
        (1 << 32, 4096, 0),
        (last, 4096, 0),
        (last, 8192, 1),
    ] {
        assert_eq!(number(Settings { base, state_table, ..good }), expected, "base {base:#x}");
    }
}

/// Sixty-four peers with sixteen vectors, and everything on at vectors 0 and 15.
fn largest() -> Bench {
    let settings = Settings { peers: 64, vectors: 16, output: 4096, ..four_peers(16) };
    let ids: Vec<u64> = (0..64).collect();
    let mut bench = Bench::new(settings, &ids);
    for id in ids {
        bench.switch_on(id, 0x100 + id as u32);
        for (offset, value) in [(0xf4, 1), (0xf8, 0x200 + id as u32), (0xfc, 0)] {
            assert_eq!(bench.number(Call::MsixWrite { id, offset, width: 4, value }), 0);
        }
    }
    bench
}

#[test]
fn all_others_of_sixty_four() {
    let mut bench = largest();
    let to =
        |id: u16| Delivery { address: 0xfee0_0000, data: 0x100 + u32::from(id), target: PeerId(id), vector: Vector(0) };
    let others = |sender: u64| (0..64).filter(|&id| u64::from(id) != sender).map(to).collect::<Vec<_>>();
    for id in [0, 31, 63] {
        assert_eq!(bench.register(id, 0x10, 5), others(id));
        assert_eq!(bench.0.world().region()[4 * id as usize..][..4], [5, 0, 0, 0]);
    }
    // A reset leaves State 0, so that the disconnect of another peer is the next that rings.
    let without = |gone: u16, sender| others(sender).into_iter().filter(move |to| to.target.0 != gone).collect();
    for (call, rung) in [
        (Call::Reset { id: 63 }, others(63)),
        (Call::Disconnect { id: 63 }, vec![]),
        (Call::Disconnect { id: 31 }, without(63, 31)),
    ] {
        for (records, number, delivered) in [(63, 11, vec![]), (64, 0, rung)] {
            let answer = bench.answer(Event::Call(call.clone(), Lengths { records, ..Lengths::USUAL }));
            assert_eq!(answer.number, number);
            assert_eq!(bench.0.world().table()[..answer.count], delivered);
        }
    }
}

#[test]
fn last_peer_and_last_vector() {
    let mut bench = largest();
    let last = Delivery { address: 1 << 32, data: 0x23f, target: PeerId(63), vector: Vector(15) };
    assert_eq!(bench.register(0, 0x0c, 0x003f_000f), [last]);
    assert_eq!(bench.register(0, 0x0c, 0x003f_0010), []);
    assert_eq!(bench.register(0, 0x0c, 0x0040_000f), []);
    assert_eq!(bench.register(0, 0x0c, 0x0040_0010), []);
    assert_eq!(bench.read(0x60), 0x800f_0011);
    for (id, offset, number, value) in [(63, 0x00, 0, 63), (63, 0x04, 0, 64), (64, 0x00, 3, 0)] {
        let answer = bench.answer(Call::RegisterRead { id, offset, width: 4 });
        assert_eq!((answer.number, answer.value), (number, value));
    }
    for (offset, value) in [(0xf8, 0x23f), (0xfc, 0), (0x100, 0), (0x108, 0), (0x10c, 0)] {
        assert_eq!(bench.answer(Call::MsixRead { id: 63, offset, width: 4 }).value, value);
    }
    assert_eq!(bench.number(Call::MsixWrite { id: 63, offset: 0x10c, width: 4, value: 1 }), 0);
    assert_eq!(bench.number(Call::Connect { id: 63 }), 5);
    assert_eq!(bench.number(Call::Connect { id: 64 }), 3);
    let own = 4096 + 63 * 4096;
    let stores =
        [(63, own, 4096, 0), (62, own, 1, 9), (63, own - 1, 1, 9), (63, own + 4095, 2, 8), (63, own + 4096, 1, 8)];
    for (id, offset, length, number) in stores {
        assert_eq!(bench.number(Call::Store { id, offset, length, fill: 7 }), number);
    }
}

#[test]
fn the_order_of_refusals() {
    let lengths = |words, region, records| Lengths { words, region, records };
    let bad_write = Call::RegisterWrite { id: 9, offset: 4097, width: 8, value: 0 };
    let mut bench = Bench::new(four_peers(4), &[0]);
    for (wrong, number) in [
        (lengths(-1, -1, 3), 10),
        (lengths(1, -1, 3), 10),
        (lengths(0, -1, 3), 2),
        (lengths(0, 0, 3), 11),
        (lengths(0, 0, 4), 3),
    ] {
        assert_eq!(bench.answer(Event::Call(bad_write.clone(), wrong)).number, number);
    }
    for (id, offset, width, number) in
        [(1, 4097, 8, 4), (0, 4097, 8, 6), (0, 4097, 4, 7), (0, 4096, 4, 8), (0, 0, 4, 0)]
    {
        assert_eq!(bench.number(Call::RegisterWrite { id, offset, width, value: 0 }), number);
    }
}

/// A set-up's refusals, 1, 10 and 2, each on a hub whose words it leaves all zero.
#[test]
fn refused_set_ups() {
    let few = Settings { peers: 1, ..four_peers(4) };
    let right = hub_words(4, 4) as i64;
    for (settings, words, region, number) in [
        (few, 0, 0, 1),
        (few, 0, -1, 1),
        (few, 1, 0, 1),
        (few, 1, -1, 1),
        (four_peers(4), 1, 0, 10),
        (four_peers(4), -1, 0, 10),
        (four_peers(4), 1, -1, 10),
        (four_peers(4), -right, 0, 10),
        (four_peers(4), 2 - right, -1, 10),
        (four_peers(4), hub_words(64, 16) as i64 - right, 0, 10),
        (four_peers(4), 0, -1, 2),
        (four_peers(4), 0, 1, 2),
        (four_peers(4), 0, 0, 0),
    ] {
        let mut bench = Bench::new(four_peers(4), &[0, 3]);
        let answer = bench.answer(Event::Call(Call::SetUp(settings), Lengths { words, region, ..Lengths::USUAL }));
        assert_eq!(answer.number, number);
        let zero = bench.0.world().lent_words().iter().all(|&word| word == 0);
        assert_eq!(zero, number != 0 || words == -right);
    }
}

/// R33, "its set-up numbers would be accepted": every call on a hub whose stored base is below the lowest, at it or above.
#[test]
fn stored_bases() {
    let settings = Settings { base: 0x10_0000, output: 4096, ..four_peers(4) };
    for (base, number) in [(0, 10), (0xf_f000, 10), (0x10_0000, 0), (0x10_1000, 0)] {
        for call in every_call() {
            let mut bench = Bench::new(settings, &[0]);
            let mut words = bench.0.world().hub_words().to_vec();
            words[BASE_WORDS[0]] = base;
            bench.0.put(&words, &settings);
            let answer = bench.answer(call.clone());
            assert_eq!(answer.number, number, "{call}, base {base:#x}");
            assert_eq!(bench.0.world().hub_words()[BASE_WORDS[0]], base);
        }
    }
}

/// Every call on words that are one too few or too many, or too few to say how many they should be.
#[test]
fn words_of_another_number() {
    let right = hub_words(4, 4) as i64;
    let mut bench = Bench::new(Settings { output: 4096, ..four_peers(4) }, &[0]);
    for call in every_call() {
        for words in [-1, 1, -right, 1 - right, 2 - right, 10 - right] {
            let answer = bench.answer(Event::Call(call.clone(), Lengths { words, ..Lengths::USUAL }));
            assert_eq!(answer, Answer { number: 10, ..Answer::default() }, "{call}");
        }
        assert_eq!(bench.number(call.clone()), 0, "{call}");
        bench.answer(Call::Connect { id: 0 });
    }
}

/// A call of every kind but set-up, each taken on a hub with output sections of whose four peers the first is connected.
fn every_call() -> [Call; 12] {
    [
        Call::Connect { id: 1 },
        Call::Disconnect { id: 0 },
        Call::Reset { id: 0 },
        Call::ConfigurationRead { id: 0, offset: 0, width: 4 },
        Call::ConfigurationWrite { id: 0, offset: 4, width: 2, value: 6 },
        Call::RegisterRead { id: 0, offset: 0, width: 4 },
        Call::RegisterWrite { id: 0, offset: 16, width: 4, value: 5 },
        Call::MsixRead { id: 0, offset: 0, width: 4 },
        Call::MsixWrite { id: 0, offset: 0, width: 4, value: 4 },
        Call::Section { id: 0, offset: 0, length: 1 },
        Call::Load { id: 0, offset: 0, length: 1 },
        Call::Store { id: 0, offset: 4096, length: 1, fill: 7 },
    ]
}

/// The largest region there is, of a gigabyte: all of it is made zero, and its last byte can be stored and loaded.
#[test]
fn largest_region() {
    const TOTAL: usize = 1 << 30;
    const LAST: u64 = TOTAL as u64 - 1;
    let mut region = vec![0xa5; TOTAL];
    let settings = Settings { read_write: TOTAL as u64 - 4096, ..four_peers(4) };
    let mut words = [0; hub_words(4, 4)];
    let mut hub = ivshmem::Hub::set_up(&mut words, &settings, &mut region).expect("the set-up is accepted");
    assert!(region.chunks(4096).all(|page| page == [0; 4096]));
    hub.connect(PeerId(3)).expect("the peer joins");
    assert_eq!(hub.store(&mut region, PeerId(3), LAST, &[7]), Ok(()));
    assert_eq!(hub.store(&mut region, PeerId(3), LAST, &[8, 9]), Err(Refusal::OutOfRange));
    let mut loaded = [0; 2];
    assert_eq!(hub.load(&region, PeerId(3), LAST - 1, &mut loaded), Ok(()));
    assert_eq!(loaded, [0, 7]);
}
