//! Records and answers as bytes: against the model's, which share nothing with them, cut anywhere, and with faults at their
//! places.

use ivshmem::{Delivery, PeerId, Refusal, Settings, Vector};
use ivshmem_log::{Answer, Ending, Fault, LONGEST_RECORD, NoAnswer, Placed, Record, SetUp, Written, records};
use model::log::BODIES;
use model::random::Random;
use model::random_log::Logs;

fn encoded(record: &Record) -> Vec<u8> {
    let mut bytes = Vec::new();
    record.encode(&mut bytes);
    bytes
}

/// A record of every kind, with every byte of its body another.
fn one_of_each() -> [(Record, Vec<u8>); 12] {
    let peer = PeerId(0x0201);
    let set_up = SetUp {
        peers: 0x0201,
        vectors: 0x0403,
        state_table: 0x0807_0605,
        read_write: 0x100f_0e0d_0c0b_0a09,
        output: 0x1817_1615_1413_1211,
        base: 0x201f_1e1d_1c1b_1a19,
        protocol: 0x2221,
        subsystem_vendor: 0x2423,
        subsystem_id: 0x2625,
    };
    let records = [
        Record::SetUp(set_up),
        Record::Connect { peer },
        Record::Disconnect { peer },
        Record::Reset { peer },
        Record::ConfigurationRead { peer, offset: 0x0403, width: 5 },
        Record::ConfigurationWrite { peer, offset: 0x0403, width: 5, value: 0x0908_0706 },
        Record::RegisterRead { peer, offset: 0x0403 },
        Record::RegisterWrite { peer, offset: 0x0403, value: 0x0807_0605 },
        Record::MsixRead { peer, offset: 0x0403 },
        Record::MsixWrite { peer, offset: 0x0403, value: 0x0807_0605 },
        Record::Load { peer, offset: 0x0605_0403 },
        Record::Store { peer, offset: 0x0605_0403, byte: 7 },
    ];
    let mut kind = 0;
    records.map(|record| {
        let bytes = (1..=BODIES[kind] as u8).collect::<Vec<u8>>();
        kind += 1;
        (record, [vec![kind as u8 - 1], bytes].concat())
    })
}

#[test]
fn every_kind_has_its_bytes() {
    for (record, bytes) in one_of_each() {
        assert_eq!(encoded(&record), bytes);
        assert_eq!(record.kind(), bytes[0]);
        assert_eq!(Record::length(record.kind()), Some(bytes.len()));
        assert_eq!(Record::decode(&bytes), Some(record));
        for shorter in 0..bytes.len() {
            assert_eq!(Record::decode(&bytes[..shorter]), None, "{record} cut to {shorter}");
        }
        assert_eq!(Record::decode(&[&bytes[..], &[0]].concat()), None, "{record} with a byte behind");
    }
    assert_eq!(one_of_each().iter().map(|(_, bytes)| bytes.len()).max(), Some(LONGEST_RECORD));
    assert!((12..=255).all(|kind| Record::length(kind).is_none() && Record::decode(&[kind; 39]).is_none()));
}

#[test]
fn the_case_of_the_rules() {
    let set_up = SetUp {
        peers: 2,
        vectors: 1,
        state_table: 4096,
        read_write: 0,
        output: 0,
        base: 0x10_0000,
        protocol: 1,
        subsystem_vendor: 0x110a,
        subsystem_id: 0x4106,
    };
    #[rustfmt::skip]
    let bytes = [
        0x00, 0x02, 0x00, 0x01, 0x00, 0x00, 0x10, 0x00, 0x00, 0, 0, 0, 0, 0, 0, 0, 0, 0, 0, 0, 0, 0, 0, 0, 0,
        0x00, 0x00, 0x10, 0x00, 0x00, 0x00, 0x00, 0x00, 0x01, 0x00, 0x0a, 0x11, 0x06, 0x41,
    ];
    assert_eq!(encoded(&Record::SetUp(set_up)), bytes);
    assert_eq!(SetUp::from_settings(&Settings::from(set_up)), Some(set_up));
}

#[test]
fn settings_too_wide_for_a_log() {
    let settings = Settings::default();
    assert!(SetUp::from_settings(&settings).is_some());
    for wide in [
        Settings { peers: 0x1_0000, ..settings },
        Settings { vectors: 0x1_0000, ..settings },
        Settings { state_table: 0x1_0000_0000, ..settings },
    ] {
        assert_eq!(SetUp::from_settings(&wide), None);
    }
}

#[test]
fn random_logs_are_read_and_written_again() {
    let mut logs = Logs::new(3, 64);
    for made in (0..40).map(|_| logs.next(2_000)) {
        let log = made.bytes();
        let mut place = 0;
        let mut items = records(&log);
        for bytes in &made.records {
            let Some(Ok(placed)) = items.next() else { panic!("a record at byte {place}") };
            assert_eq!((placed.place, encoded(&placed.record)), (place, bytes.clone()));
            place += bytes.len() as u64;
        }
        let fault = made.tail.first().map(|&kind| match kind {
            0..12 => Fault::EndsInside { place, kind, bytes: made.tail.len() },
            _ => Fault::UnknownKind { place, kind },
        });
        assert_eq!(items.next(), fault.map(Err));
        assert_eq!(items.next(), None);
    }
}

#[test]
fn faults_have_places_and_words() {
    let log: Vec<u8> = one_of_each().into_iter().flat_map(|(_, bytes)| bytes).collect();
    let mut place = 0;
    for (record, bytes) in one_of_each() {
        for held in 1..bytes.len() {
            let last = records(&log[..place as usize + held]).last();
            assert_eq!(last, Some(Err(Fault::EndsInside { place, kind: record.kind(), bytes: held })));
        }
        place += bytes.len() as u64;
        assert!(
            matches!(records(&log[..place as usize]).last(), Some(Ok(Placed { record: last, .. })) if last == record)
        );
        // Behind an unknown kind nothing is read, not even a record.
        let unknown = [&log[..place as usize], &[0x0c], &log].concat();
        assert_eq!(records(&unknown).last(), Some(Err(Fault::UnknownKind { place, kind: 0x0c })));
    }
    let text = |fault: Fault| (fault.code(), fault.to_string());
    let inside = Fault::EndsInside { place: 126, kind: 9, bytes: 5 };
    let words = "byte 131: the log ends inside the MSI-X write that begins at byte 126, after 5 of its 9 bytes";
    assert_eq!(text(inside), (0x84, words.into()));
    let unknown = Fault::UnknownKind { place: 120, kind: 0x0c };
    assert_eq!(text(unknown), (0x85, "byte 120: 0Ch is no kind of record".into()));
}

fn random_answer(random: &mut Random) -> Answer {
    match random.below(3) {
        0 => Answer::Refused(random.pick(&Refusal::ALL)),
        1 => Answer::Value(random.word()),
        _ => Answer::Done(
            (0..random.below(4))
                .map(|_| Delivery {
                    address: random.long(),
                    data: random.word(),
                    target: PeerId(random.word() as u16),
                    vector: Vector(random.word() as u16),
                })
                .collect(),
        ),
    }
}

#[test]
fn answers_are_read_as_written() {
    let delivery =
        Delivery { address: 0x0c0b_0a09_0807_0605, data: 0x100f_0e0d, target: PeerId(0x0201), vector: Vector(0x0403) };
    let mut bytes = Vec::new();
    Answer::Done(vec![delivery]).encode(&mut bytes);
    assert_eq!(bytes, [&[0x81, 0x83][..], &(1..=16).collect::<Vec<u8>>()].concat());

    let mut random = Random::new(8);
    for _ in 0..10_000 {
        let answers: Vec<Answer> = (0..random.below(6)).map(|_| random_answer(&mut random)).collect();
        let mut bytes = Vec::new();
        answers.iter().for_each(|answer| answer.encode(&mut bytes));
        for (tail, ending) in
            [(None, Ending::Whole), (Some(0x84), Ending::InsideRecord), (Some(0x85), Ending::UnknownKind)]
        {
            let written: Vec<u8> = bytes.iter().copied().chain(tail).collect();
            assert_eq!(Written::decode(&written), Ok(Written { answers: answers.clone(), ending }));
        }
    }
}

#[test]
fn what_is_no_answer_has_a_place() {
    let is_none = |written: &[u8], place: usize| assert_eq!(Written::decode(written), Err(NoAnswer { place }));
    is_none(&[0x80], 0);
    is_none(&[0x81, 0x80, 0], 1);
    is_none(&[0x81, 0x80, 12], 1);
    // A number that a byte does not hold is not cut to one that is a refusal's.
    let mut bytes = Vec::new();
    Answer::Refused(Refusal::Unknown(0x105)).encode(&mut bytes);
    assert_eq!(bytes, [0x80, 0xff]);
    is_none(&bytes, 0);
    is_none(&[0x82, 1, 2, 3], 0);
    is_none(&[0x82, 1, 2, 3, 4, 0x83], 5);
    is_none(&[0x81, 0x83, 1, 2, 3], 0);
    is_none(&[0x84, 0x81], 0);
    is_none(&[0x81, 0x86], 1);
    assert_eq!(NoAnswer { place: 5 }.to_string(), "byte 5: no answer begins here, or it is cut off");
}
