//! The recorder: it answers as the hub does, and its log plays back to the same answers; what is not in the log is noted.

mod common;

use std::cell::RefCell;
use std::io::{self, ErrorKind, Write};
use std::rc::Rc;
use std::time::Instant;

use common::{play_on_library, play_on_program};
use ivshmem::{Delivery, Hub, PeerId, Placement, Refusal, Region, Section, Settings, hub_words, register};
use ivshmem_log::{Answer, LONGEST_REGION, Log, MOST_NOTES, Player, Recorder, SetUpError, Why, Written};
use model::call::{Call, Event, Lengths};
use model::compare::Pair;
use model::count::Counts;
use model::generate::Generator;
use model::hub::{Hub as ModelHub, Numbers};
use model::layout::decode;
use model::random::Random;
use model::subject::{Answer as Whole, Lent, Subject};

/// A recorder, the answers that its log must play back to, and what was not in it.
struct Kept {
    log: Log<Vec<u8>>,
    answers: Vec<Answer>,
    /// Whether the log has a hub.
    has_hub: bool,
    ranges: u64,
    notes: [u64; 4],
}

impl Kept {
    fn new() -> Kept {
        Kept { log: Log::new(Vec::new()), answers: Vec::new(), has_hub: false, ranges: 0, notes: [0; 4] }
    }

    /// What the rules of the recorder say of a call: the answers that a player gives for it, or none.
    fn expected(&self, call: &Call, answer: &Whole, table: &[Delivery], buffer: &[u8]) -> Option<Vec<Answer>> {
        let refusal = Refusal::from_number(answer.number);
        if !self.is_in_log(call, refusal) {
            return None;
        }
        let one = |answer: Answer| Some(vec![answer]);
        if let Some(refusal) = refusal {
            return one(Answer::Refused(refusal));
        }
        match call {
            Call::ConfigurationRead { .. } | Call::RegisterRead { .. } | Call::MsixRead { .. } => {
                one(Answer::Value(answer.value))
            }
            Call::Load { .. } => Some(buffer.iter().map(|byte| Answer::Value((*byte).into())).collect()),
            Call::Store { .. } => Some(vec![Answer::Done(Vec::new()); buffer.len()]),
            _ => one(Answer::Done(table[..answer.count].to_vec())),
        }
    }

    fn is_in_log(&self, call: &Call, refusal: Option<Refusal>) -> bool {
        let no_hub = refusal == Some(Refusal::UnsoundHub);
        let fits = match *call {
            Call::SetUp(s) => {
                let narrow = s.peers < 1 << 16 && s.vectors < 1 << 16 && s.state_table < 1 << 32;
                return narrow && matches!(refusal, None | Some(Refusal::BadSetting));
            }
            Call::Connect { .. } | Call::Disconnect { .. } | Call::Reset { .. } => true,
            Call::ConfigurationRead { offset, width, .. } | Call::ConfigurationWrite { offset, width, .. } => {
                offset < 1 << 16 && width < 1 << 8
            }
            Call::RegisterRead { offset, width, .. }
            | Call::RegisterWrite { offset, width, .. }
            | Call::MsixRead { offset, width, .. }
            | Call::MsixWrite { offset, width, .. } => offset < 1 << 16 && width == 4,
            Call::Section { .. } => false,
            Call::Load { offset, length, .. } | Call::Store { offset, length, .. } => {
                offset < 1 << 32 && (length == 1 || refusal.is_none())
            }
        };
        let memory = matches!(refusal, Some(Refusal::BadRegion | Refusal::ShortTable));
        fits && !memory && no_hub != self.has_hub
    }

    /// Takes in a call that was made, and checks that it is in the log just where it should be.
    fn add(&mut self, call: &Call, answer: &Whole, noted: u64, expected: Option<Vec<Answer>>) {
        assert_eq!(expected.is_none(), self.log.noted() > noted, "{call}: {answer}, in the log or noted");
        match expected {
            None => {
                if let Some(note) = self.log.notes().last().filter(|_| self.log.noted() <= MOST_NOTES as u64) {
                    self.notes[note.why as usize] += 1;
                }
            }
            Some(answers) => {
                self.ranges += u64::from(answers.len() > 1);
                self.answers.extend(answers);
                if let Call::SetUp(_) = call {
                    self.has_hub = answer.number == 0;
                }
            }
        }
    }
}

/// The recorder as a subject of the differential harness, which compares every answer and all memory with the model.
struct Recorded(Rc<RefCell<Kept>>);

impl Subject for Recorded {
    fn perform(&mut self, call: &Call, lent: Lent<'_>) -> Whole {
        let mut kept = self.0.borrow_mut();
        let noted = kept.log.noted();
        let Lent { words, region, table, buffer } = lent;
        let answer = perform(&mut kept.log, call, Lent { words, region, table, buffer });
        let expected = kept.expected(call, &answer, table, buffer);
        kept.add(call, &answer, noted, expected);
        answer
    }
}

fn answered<T>(answer: Result<T, Refusal>, taken: impl FnOnce(T) -> Whole) -> Whole {
    answer.map_or_else(|refusal| Whole { number: refusal.number(), ..Whole::default() }, taken)
}

/// The section question's answer in the header's numbers.
fn placed(placement: Placement) -> Whole {
    let (kind, owner) = match placement.section {
        Section::StateTable => (1, 0),
        Section::ReadWrite => (2, 0),
        Section::Output(owner) => (3, owner.0.into()),
        other => panic!("no section of the rules: {other:?}"),
    };
    Whole { kind, owner, store: placement.may_store.into(), ..Whole::default() }
}

fn perform(log: &mut Log<Vec<u8>>, call: &Call, lent: Lent<'_>) -> Whole {
    let Lent { words, region, table, buffer } = lent;
    if let Call::SetUp(settings) = call {
        let set_up = Recorder::set_up(words, settings, region, log).map(|_| ()).map_err(|error| match error {
            SetUpError::Refused(refusal) => refusal,
            SetUpError::TooLarge => panic!("{call} is too large"),
        });
        return answered(set_up, |()| Whole::default());
    }
    let peer = PeerId(call.peer().unwrap_or_default() as u16);
    let mut hub = Recorder::from_words(words, log);
    let done = |()| Whole::default();
    let read = |value| Whole { value, ..Whole::default() };
    let count = |delivered: &[Delivery]| Whole { count: delivered.len(), ..Whole::default() };
    match *call {
        Call::SetUp(_) => unreachable!("made above"),
        Call::Connect { .. } => answered(hub.connect(peer), done),
        Call::Disconnect { .. } => answered(hub.disconnect(region, table, peer), count),
        Call::Reset { .. } => answered(hub.reset(region, table, peer), count),
        Call::ConfigurationRead { offset, width, .. } => answered(hub.configuration_read(peer, offset, width), read),
        Call::ConfigurationWrite { offset, width, value, .. } => {
            answered(hub.configuration_write(peer, offset, width, value), done)
        }
        Call::RegisterRead { offset, width, .. } => answered(hub.register_read(peer, offset, width), read),
        Call::RegisterWrite { offset, width, value, .. } => {
            answered(hub.register_write(region, table, peer, offset, width, value), count)
        }
        Call::MsixRead { offset, width, .. } => answered(hub.msix_read(peer, offset, width), read),
        Call::MsixWrite { offset, width, value, .. } => answered(hub.msix_write(peer, offset, width, value), done),
        Call::Section { offset, length, .. } => answered(hub.section_question(peer, offset, length), placed),
        Call::Load { offset, .. } => answered(hub.load(region, peer, offset, buffer), done),
        Call::Store { offset, .. } => answered(hub.store(region, peer, offset, buffer), done),
    }
}

/// The event as a host of the recorder can make it: ids have 16 bits, sections fit into a log, and nothing else changes the
/// hub's words.
fn of_host(event: Event, random: &mut Random) -> Option<Event> {
    let Event::Call(mut call, lengths) = event else { return None };
    match &mut call {
        Call::SetUp(settings) => {
            if Numbers::from(&*settings).total() > LONGEST_REGION as u128 {
                *settings = Settings { state_table: 4096, read_write: random.pick(&[0, 4096]), output: 0, ..*settings };
            }
        }
        Call::Connect { id }
        | Call::Disconnect { id }
        | Call::Reset { id }
        | Call::ConfigurationRead { id, .. }
        | Call::ConfigurationWrite { id, .. }
        | Call::RegisterRead { id, .. }
        | Call::RegisterWrite { id, .. }
        | Call::MsixRead { id, .. }
        | Call::MsixWrite { id, .. }
        | Call::Section { id, .. }
        | Call::Load { id, .. }
        | Call::Store { id, .. } => *id &= 0xffff,
    }
    Some(Event::Call(call, lengths))
}

/// Runs a history through a recorder; what was kept.
fn run(generator: &mut Generator, random: &mut Random) -> Kept {
    let kept = Rc::new(RefCell::new(Kept::new()));
    let mut pair = Pair::new(Recorded(Rc::clone(&kept)));
    let mut counts = Counts::default();
    generator.begin();
    // A call before any set-up plays back too.
    let mut next = Some(Event::Call(Call::Connect { id: 0 }, Lengths::USUAL));
    while next.is_some() || !generator.finished() {
        let event = next.take().or_else(|| {
            let hub = decode(pair.world().hub_words()).unwrap_or(ModelHub::NONE);
            of_host(generator.next(&hub, pair.world().total()), random)
        });
        if let Some(event) = event
            && let Err(difference) = pair.apply(&event, &mut counts)
        {
            panic!("{event}: {difference}");
        }
    }
    drop(pair);
    Rc::into_inner(kept).expect("the pair is gone").into_inner()
}

#[test]
fn a_recorded_run_plays_back_to_the_same_answers() {
    const HISTORIES: u64 = 300;
    let start = Instant::now();
    let (mut generator, mut random) = (Generator::new(13), Random::new(14));
    let (mut records, mut ranges, mut delivered, mut notes) = (0, 0, 0, [0; 4]);
    for at in 0..HISTORIES {
        let kept = run(&mut generator, &mut random);
        assert_eq!(kept.log.records(), kept.answers.len() as u64);
        let log = kept.log.into_writer();
        let played = Written::decode(&play_on_library(&[&log]).unwrap()).unwrap().answers;
        assert!(played == kept.answers, "history {at} plays back to other answers");
        if at % 4 == 0 {
            let played = Written::decode(&play_on_program(&[&log]).unwrap()).unwrap().answers;
            assert!(played == kept.answers, "history {at} plays back to other answers on the program");
        }
        records += kept.answers.len();
        ranges += kept.ranges;
        delivered +=
            kept.answers.iter().filter(|answer| matches!(answer, Answer::Done(list) if !list.is_empty())).count();
        notes.iter_mut().zip(kept.notes).for_each(|(sum, count)| *sum += count);
    }
    let seconds = start.elapsed().as_secs_f64();
    let text = format!("{HISTORIES} histories recorded: {records} records, {delivered} with interrupts");
    let _ = writeln!(io::stdout().lock(), "{text}, {ranges} ranges; noted by reason: {notes:?}; {seconds:.1} s");
    assert!(records >= 6_000_000 && delivered >= 18_000 && ranges >= 12_000, "{text}");
    let [no_record, other_memory, other_hub, failed] = notes;
    assert!(no_record >= 40_000 && other_memory >= 27_000, "{notes:?}");
    // A set-up that is refused on other words than the hub's leaves it a hub, though the log has none.
    assert!(other_hub <= 20 && failed == 0, "{notes:?}");
}

const SETTINGS: Settings = Settings {
    peers: 2,
    vectors: 1,
    state_table: 4096,
    read_write: 4096,
    output: 4096,
    base: 0x10_0000,
    protocol: 1,
    subsystem_vendor: 0x110a,
    subsystem_id: 0x4106,
};
const WORDS: usize = hub_words(2, 1);
const TOTAL: usize = 4 * 4096;
const ZERO: PeerId = PeerId(0);

/// What a log plays back to.
fn played(log: &[u8]) -> Vec<u8> {
    play_on_library(&[log]).unwrap()
}

/// What is noted below, but for the place.
fn ten_notes() -> [String; 10] {
    let no_record = "[not in the log: no record says this]";
    let memory = "[not in the log: a player lends the right memory]";
    let refused = |refusal: Refusal| format!("refused, {} ({refusal})", refusal.number());
    let (width, range) = (refused(Refusal::BadWidth), refused(Refusal::OutOfRange));
    let (region, table) = (refused(Refusal::BadRegion), refused(Refusal::ShortTable));
    [
        format!("peer 0 asks for the section of 4 bytes at 8192: the output section of peer 0, may store {no_record}"),
        format!("peer 0 asks for the section of 0 bytes at 0: {width} {no_record}"),
        format!("peer 0 stores 2 bytes at 8191: {range} {no_record}"),
        format!("peer 0 loads 0 bytes at 0: {width} {no_record}"),
        format!("peer 0 stores byte 4294967296 = 61h: {range} {no_record}"),
        format!("peer 0 reads register 04h, 2 bytes (Maximum Peers): {width} {no_record}"),
        format!("peer 0 reads configuration 04h, 256 bytes: {width} {no_record}"),
        format!("peer 0 writes MSI-X 10000h = 1: {range} {no_record}"),
        format!("reset peer 0: {region} {memory}"),
        format!("peer 0 writes register 0Ch (Doorbell) = 10000h, vector 0 of peer 1: {table} {memory}"),
    ]
}

#[test]
fn what_a_log_cannot_hold_is_noted_in_words() {
    let (mut words, mut region, mut table) = ([0; WORDS], [0; TOTAL], [Delivery::default(); 2]);
    let mut log = Log::new(Vec::new());
    let mut hub = Recorder::set_up(&mut words, &SETTINGS, &mut region, &mut log).unwrap();
    hub.connect(ZERO).unwrap();
    assert!(hub.log().is_complete());
    assert_eq!(hub.section_question(ZERO, 8192, 4).map(|placement| placement.may_store), Ok(true));
    assert_eq!(hub.section_question(ZERO, 0, 0), Err(Refusal::BadWidth));
    assert_eq!(hub.store(&mut region, ZERO, 8191, b"ab"), Err(Refusal::OutOfRange));
    assert_eq!(hub.load(&region, ZERO, 0, &mut []), Err(Refusal::BadWidth));
    assert_eq!(hub.store(&mut region, ZERO, 1 << 32, b"a"), Err(Refusal::OutOfRange));
    assert_eq!(hub.register_read(ZERO, register::MAXIMUM_PEERS, 2), Err(Refusal::BadWidth));
    assert_eq!(hub.configuration_read(ZERO, 4, 256), Err(Refusal::BadWidth));
    assert_eq!(hub.msix_write(ZERO, 1 << 16, 4, 1), Err(Refusal::OutOfRange));
    assert_eq!(hub.reset(&mut region[1..], &mut table, ZERO), Err(Refusal::BadRegion));
    let rung = hub.register_write(&mut region, &mut table[..1], ZERO, register::DOORBELL, 4, 0x1_0000);
    assert_eq!(rung, Err(Refusal::ShortTable));
    assert_eq!(hub.connect(ZERO), Err(Refusal::Connected));
    let (noted, complete) = (log.noted(), log.is_complete());
    assert_eq!((noted, complete, log.records()), (10, false, 3));
    let text: Vec<String> = log.notes().iter().map(ToString::to_string).collect();
    // All of them stand behind the set-up and the first connect.
    assert_eq!(text, ten_notes().map(|line| format!("      42  {line}")));
    assert!(log.notes().iter().all(|note| note.records == 2 && note.place == 42));
    assert_eq!(played(&log.into_writer()), [0x81, 0x81, 0x80, 5]);
}

/// With a region that guests may change the log is the same as with a slice; questions of the host are in neither.
#[test]
fn regions_and_questions() {
    let written = |handles: bool| {
        let (mut words, mut bytes, mut table) = ([0; WORDS], [7; TOTAL], [Delivery::default(); 2]);
        let (mut log, mut buffer) = (Log::new(Vec::new()), [0; 2]);
        if handles {
            let region = &mut Region::from_slice(&mut bytes);
            let mut hub = Recorder::set_up_at(&mut words, &SETTINGS, region, &mut log).unwrap();
            assert_eq!((hub.is_sound(), hub.is_connected(ZERO)), (true, Ok(false)));
            hub.connect(ZERO).unwrap();
            assert_eq!(hub.is_connected(ZERO), Ok(true));
            assert_eq!(hub.is_connected(PeerId(2)), Err(Refusal::NoSuchPeer));
            hub.store_at(region, ZERO, 8192, b"ab").unwrap();
            hub.load_at(region, ZERO, 8192, &mut buffer).unwrap();
            assert_eq!(hub.register_write_at(region, &mut table, ZERO, register::STATE, 4, 1), Ok(&[][..]));
            assert_eq!(hub.reset_at(region, &mut table, ZERO), Ok(&[][..]));
            assert_eq!(hub.disconnect_at(region, &mut table, ZERO), Ok(&[][..]));
        } else {
            let mut hub = Recorder::set_up(&mut words, &SETTINGS, &mut bytes, &mut log).unwrap();
            hub.connect(ZERO).unwrap();
            hub.store(&mut bytes, ZERO, 8192, b"ab").unwrap();
            hub.load(&bytes, ZERO, 8192, &mut buffer).unwrap();
            assert_eq!(hub.register_write(&mut bytes, &mut table, ZERO, register::STATE, 4, 1), Ok(&[][..]));
            assert_eq!(hub.reset(&mut bytes, &mut table, ZERO), Ok(&[][..]));
            assert_eq!(hub.disconnect(&mut bytes, &mut table, ZERO), Ok(&[][..]));
        }
        assert_eq!((buffer, log.is_complete(), log.records()), (*b"ab", true, 9));
        (log.into_writer(), words, bytes)
    };
    assert_eq!(written(true), written(false));
}

#[test]
fn a_range_is_its_bytes() {
    let (mut words, mut region) = ([0; WORDS], [0; TOTAL]);
    let mut log = Log::new(Vec::new());
    let mut hub = Recorder::set_up(&mut words, &SETTINGS, &mut region, &mut log).unwrap();
    hub.connect(ZERO).unwrap();
    hub.store(&mut region, ZERO, 8192, b"abc").unwrap();
    let mut buffer = [0; 4];
    hub.load(&region, ZERO, 8191, &mut buffer[..1]).unwrap();
    hub.load(&region, ZERO, 8192, &mut buffer).unwrap();
    assert!(log.is_complete());
    assert_eq!(log.records(), 2 + 3 + 1 + 4);
    let written = played(&log.into_writer());
    let (stored, loaded) = written[2..].split_at(3);
    assert_eq!(stored, [0x81; 3]);
    let values: Vec<u8> = loaded.chunks(5).map(|value| value[1]).collect();
    assert_eq!(values, b"\0abc\0");
}

#[test]
fn a_set_up_that_is_too_large_is_refused() {
    let settings = Settings { read_write: 4096 * 7, output: 0, ..SETTINGS };
    let (mut words, mut region) = ([7; WORDS], vec![7; LONGEST_REGION + 4096]);
    let mut log = Log::new(Vec::new());
    let large = Settings { read_write: settings.read_write + 4096, ..settings };
    let error = Recorder::set_up(&mut words, &large, &mut region, &mut log).unwrap_err();
    assert_eq!(error, SetUpError::TooLarge);
    assert_eq!(error.to_string(), "the sections have more than 32768 bytes, and no log takes more");
    assert!(words.iter().all(|&word| word == 7) && region.iter().all(|&byte| byte == 7));
    assert!(log.is_complete() && log.records() == 0);
    // A hub would take it.
    assert!(Hub::set_up(&mut words, &large, &mut region).is_ok());
    assert!(Recorder::set_up(&mut words, &settings, &mut region[..LONGEST_REGION], &mut log).is_ok());
    assert_eq!(played(&log.into_writer()), [0x81]);
}

#[test]
fn set_ups_that_are_refused() {
    let (mut words, mut region) = ([7; WORDS], [0; TOTAL]);
    let mut log = Log::new(Vec::new());
    let mut refused = |words: &mut [u32], settings: Settings, region: &mut [u8]| {
        let error = Recorder::set_up(words, &settings, region, &mut log).unwrap_err();
        let connect = Recorder::from_words(words, &mut log).connect(ZERO);
        (error, connect, log.noted(), log.records())
    };
    let (number, none) = (SetUpError::Refused(Refusal::BadSetting), Err(Refusal::UnsoundHub));
    // Both are in the log.
    assert_eq!(refused(&mut words, Settings { base: 0, ..SETTINGS }, &mut region), (number, none, 0, 2));
    // A number that no log has room for: noted. There was no hub before, so that the call after it is in the log.
    assert_eq!(
        refused(&mut words, Settings { peers: 1 << 16, output: 0, ..SETTINGS }, &mut region),
        (number, none, 1, 3)
    );
    let memory = |refusal| SetUpError::Refused(refusal);
    assert_eq!(refused(&mut words[1..], SETTINGS, &mut region), (memory(Refusal::UnsoundHub), none, 2, 4));
    assert_eq!(refused(&mut words, SETTINGS, &mut region[1..]), (memory(Refusal::BadRegion), none, 3, 5));
    assert_eq!(
        log.notes().iter().map(|note| note.why).collect::<Vec<_>>(),
        [Why::NoRecord, Why::OtherMemory, Why::OtherMemory]
    );
    assert_eq!(
        log.notes()[2].call,
        "set up 2 peers, 1 vector each, State Table 4096, R/W 4096, outputs 4096, base 100000h, protocol 1, subsystem \
         vendor 110Ah, subsystem id 4106h"
    );
    assert_eq!(played(&log.into_writer()), [0x80, 1, 0x80, 10, 0x80, 10, 0x80, 10, 0x80, 10]);
}

#[test]
fn a_hub_from_elsewhere_and_a_damaged_one_are_noted() {
    let (mut words, mut region) = ([0; WORDS], [0; TOTAL]);
    Hub::set_up(&mut words, &SETTINGS, &mut region).unwrap();
    let mut log = Log::new(Vec::new());
    assert_eq!(Recorder::from_words(&mut words, &mut log).connect(ZERO), Ok(()));
    assert_eq!(log.notes().last().map(|note| note.why), Some(Why::OtherHub));

    let mut hub = Recorder::set_up(&mut words, &SETTINGS, &mut region, &mut log).unwrap();
    hub.connect(ZERO).unwrap();
    words[0] ^= 1 << 31;
    assert_eq!(Recorder::from_words(&mut words, &mut log).connect(PeerId(1)), Err(Refusal::UnsoundHub));
    assert_eq!(log.notes().last().map(|note| (note.why, note.records)), Some((Why::OtherMemory, 2)));
    words[0] ^= 1 << 31;
    assert_eq!(Recorder::from_words(&mut words, &mut log).connect(PeerId(1)), Ok(()));
    assert_eq!(log.noted(), 2);
    assert_eq!(played(&log.into_writer()), [0x81, 0x81, 0x81]);
}

#[test]
fn notes_are_bounded_and_all_are_counted() {
    let mut words = [0; WORDS];
    let mut log = Log::new(Vec::new());
    let mut hub = Recorder::from_words(&mut words, &mut log);
    for offset in 0..2 * MOST_NOTES as u64 {
        assert_eq!(hub.section_question(ZERO, offset, 1), Err(Refusal::UnsoundHub));
    }
    assert_eq!((log.notes().len(), log.noted()), (MOST_NOTES, 2 * MOST_NOTES as u64));
    assert!(log.notes()[MOST_NOTES - 1].call.ends_with("at 1023"));
}

/// Takes so many bytes, then none.
struct Full {
    taken: Vec<u8>,
    room: usize,
}

impl Write for Full {
    fn write(&mut self, bytes: &[u8]) -> io::Result<usize> {
        let length = bytes.len().min(self.room - self.taken.len());
        if length == 0 {
            return Err(io::Error::new(ErrorKind::StorageFull, "no room"));
        }
        self.taken.extend(&bytes[..length]);
        Ok(length)
    }

    fn flush(&mut self) -> io::Result<()> {
        Ok(())
    }
}

#[test]
fn a_writer_that_fails_ends_the_log_and_not_the_hub() {
    // Room for the set-up, a connect and a part of the next record.
    for room in 42..45 {
        let (mut words, mut region) = ([0; WORDS], [0; TOTAL]);
        let mut log = Log::new(Full { taken: Vec::new(), room });
        let mut hub = Recorder::set_up(&mut words, &SETTINGS, &mut region, &mut log).unwrap();
        assert_eq!(hub.connect(ZERO), Ok(()));
        assert!(hub.log().is_complete() && hub.log().failure().is_none());
        assert_eq!(hub.connect(PeerId(1)), Ok(()));
        assert_eq!(hub.connect(PeerId(1)), Err(Refusal::Connected));
        assert_eq!(log.failure().map(io::Error::kind), Some(ErrorKind::StorageFull));
        assert_eq!(log.flush().map_err(|error| error.to_string()), Err("no room".into()));
        assert_eq!((log.records(), log.noted(), log.is_complete()), (2, 2, false));
        let lines: Vec<String> = log.notes().iter().map(ToString::to_string).collect();
        assert_eq!(lines[0], "      42  connect peer 1: done [not in the log: the writer failed]");
        assert!(log.notes().iter().all(|note| note.why == Why::WriterFailed && note.place == 42));
        // A part of the record may be there, and nothing behind it.
        let taken = log.into_writer().taken;
        assert_eq!(taken.len(), room);
        let ending: &[u8] = if room > 42 { &[0x84] } else { &[] };
        assert_eq!(played(&taken), [&[0x81, 0x81], ending].concat());
    }
}

#[test]
fn a_record_is_written_before_its_answer_is_given() {
    let (mut words, mut region) = ([0; WORDS], [0; TOTAL]);
    let mut log = Log::new(Vec::new());
    let mut hub = Recorder::set_up(&mut words, &SETTINGS, &mut region, &mut log).unwrap();
    for records in 2..5 {
        let _ = hub.connect(ZERO);
        assert_eq!(hub.log().records(), records);
    }
    let mut player = Player::default();
    let mut answers = 0;
    player.feed(&log.into_writer(), |_| answers += 1).unwrap();
    assert_eq!(answers, 4);
}
