//! Every method of the reader's wrapper, every message, and every refusal through it.

use std::error::Error;

use ivshmem_protocol::raw::{self, Answer, Progress, Served, Started};
use ivshmem_protocol::{Due, IDS, MAX_VECTORS, Message, RECORD_BYTES, Read, Reader, Refusal, record};

const OWN: u8 = 9;

/// The three records of a start, with [`OWN`] as the own id.
fn start() -> Vec<u8> {
    [record(false, 0), record(false, OWN.into()), record(true, -1)].concat()
}

/// A reader behind the start.
fn started(vectors: u64) -> Reader {
    let mut reader = Reader::new(vectors).unwrap();
    assert_eq!(reader.messages(&start()).count(), 3);
    reader
}

/// Feeds one record, which is taken whole.
fn feed(reader: &mut Reader, descriptor: bool, number: i64) -> Message {
    let read = reader.read(&record(descriptor, number));
    assert_eq!(read.taken, RECORD_BYTES);
    read.message
}

#[test]
fn numbers_of_refusals() {
    assert_eq!(Refusal::ALL.map(Refusal::number), [1, 2, 4, 10, 10, 11, 12]);
    for refusal in Refusal::ALL {
        let number = refusal.number();
        // 10 is one thing of a reader and another of a server.
        let [readers, servers] = if number == 10 { [Refusal::BadProgress, Refusal::BadServer] } else { [refusal; 2] };
        assert_eq!(Refusal::from_number(number), Some(readers));
        assert_eq!(Answer { number, ..Answer::default() }.result(), Err(readers));
        assert_eq!(Started { number, ..Started::default() }.result(), Err(servers));
        assert_eq!(Served { number, ..Served::default() }.result(), Err(servers));
        let error: Box<dyn Error> = refusal.into();
        assert_eq!(error.to_string(), refusal.reason());
    }
    assert_eq!(Refusal::from_number(0), None);
}

/// A number that this crate does not know is none that it knows, and is kept.
#[test]
fn unknown_numbers() {
    for number in [3, 5, 9, 13, 255, 256, 0x0001_000a, u32::MAX] {
        let refusal = Answer { number, message: 1, ..Answer::default() }.result().unwrap_err();
        assert_eq!((refusal, refusal.number()), (Refusal::Unknown(number), number));
        assert_eq!(Started { number, ..Started::default() }.result(), Err(refusal));
        assert_eq!(Served { number, messages: 1, ..Served::default() }.result(), Err(refusal));
        assert!(!Refusal::ALL.contains(&refusal));
        assert_eq!(refusal.to_string(), format!("an unknown number, {number}"));
    }
    assert_eq!(Due::ALL.map(Due::number), [0, 1, 2, 3, 4]);
    assert_eq!(Due::ALL.map(|due| Due::from_number(due.number())), Due::ALL);
    for number in [5, 256, u32::MAX] {
        assert_eq!(Due::from_number(number), Due::Unknown(number));
        assert_eq!(Due::Unknown(number).number(), number);
    }
}

/// Messages, ids and counts that this crate does not know are no message that it knows.
#[test]
fn unknown_messages() {
    let named = |message, id, count| {
        let answer = Answer { message, id, count, taken: 7, ..Answer::default() };
        let Read { message, taken } = answer.result().unwrap();
        assert_eq!(taken, 7);
        message
    };
    for (number, message) in [
        (0, Message::More),
        (1, Message::Version),
        (2, Message::Id(255)),
        (3, Message::Memory),
        (4, Message::Vector { id: 255, count: 254 }),
        (5, Message::Extra { id: 255, count: 254 }),
        (6, Message::Disconnected { id: 255 }),
        (7, Message::Closed),
    ] {
        assert_eq!(named(number, 255, 254), message);
    }
    for (message, id, count) in
        [(8, 0, 0), (256, 1, 2), (u32::MAX, 0, 0), (2, 256, 0), (4, 256, 1), (4, 1, 256), (5, 1, 256), (6, 256, 0)]
    {
        assert_eq!(named(message, id, count), Message::Unknown { message, id, count });
    }
}

#[test]
fn records() {
    assert_eq!(record(false, 0), [0; 9]);
    assert_eq!(record(true, 63), [1, 63, 0, 0, 0, 0, 0, 0, 0]);
    assert_eq!(record(true, -1), [1, 255, 255, 255, 255, 255, 255, 255, 255]);
    assert_eq!(record(false, 0x0102_0304_0506_0708), [0, 8, 7, 6, 5, 4, 3, 2, 1]);
}

#[test]
fn a_good_start() {
    let mut reader = Reader::new(2).unwrap();
    let steps = [
        (false, 0, Message::Version, Due::Id),
        (false, 9, Message::Id(OWN), Due::Memory),
        (true, -1, Message::Memory, Due::Peers),
    ];
    assert_eq!((reader.due(), reader.own_id(), reader.vectors()), (Due::Version, None, 2));
    for (descriptor, number, message, due) in steps {
        assert_eq!(feed(&mut reader, descriptor, number), message);
        assert_eq!((reader.due(), reader.is_closed()), (due, false));
        let known = matches!(due, Due::Memory | Due::Peers).then_some(OWN);
        assert_eq!(reader.own_id(), known);
    }
    assert_eq!(reader.counts(), &[0; IDS]);
    assert_eq!(*reader.progress(), Progress { due: 3, own: OWN.into(), ..Progress::default() });
}

/// Every id from 0 to 63 may be the own one, and 0 is known from none.
#[test]
fn own_ids() {
    for id in 0..=63 {
        let mut reader = Reader::new(1).unwrap();
        assert_eq!(feed(&mut reader, false, 0), Message::Version);
        assert_eq!(reader.own_id(), None);
        assert_eq!(feed(&mut reader, false, id.into()), Message::Id(id));
        assert_eq!(reader.own_id(), Some(id));
        // It stays when the reader is closed.
        assert_eq!(feed(&mut reader, false, 0), Message::Closed);
        assert_eq!((reader.own_id(), reader.progress().own), (Some(id), id.into()));
    }
    let mut reader = Reader::new(1).unwrap();
    assert_eq!(feed(&mut reader, false, 1), Message::Closed);
    assert_eq!((reader.own_id(), reader.progress().own), (None, 0));
}

#[test]
fn vectors_of_peers() {
    for vectors in 1..=MAX_VECTORS {
        let mut reader = started(vectors);
        for id in [0, OWN, 63] {
            for count in 1..=vectors as u8 {
                assert_eq!(feed(&mut reader, true, id.into()), Message::Vector { id, count });
                assert_eq!(reader.count(id), count);
            }
            let count = vectors as u8;
            for _ in 0..2 {
                assert_eq!(feed(&mut reader, true, id.into()), Message::Extra { id, count });
                assert_eq!(reader.count(id), count);
            }
        }
        assert_eq!(reader.counts().iter().filter(|&&count| count > 0).count(), 3);
        assert_eq!(feed(&mut reader, false, 63), Message::Disconnected { id: 63 });
        assert_eq!((reader.count(0), reader.count(63), reader.count(64), reader.count(255)), (vectors as u8, 0, 0, 0));
        assert_eq!(feed(&mut reader, true, 63), Message::Vector { id: 63, count: 1 });
        assert_eq!(reader.due(), Due::Peers);
    }
}

/// Records that are not in place behind so many of the records below: of the start, and two vectors.
const WRONG: [(usize, &[(bool, i64)]); 5] = [
    (0, &[(true, 0), (false, 1), (false, -1), (false, 256), (true, -1), (false, i64::MIN)]),
    (1, &[(true, 0), (true, 63), (false, 64), (false, -1), (false, 256), (false, 1 << 32), (false, i64::MIN)]),
    (2, &[(false, -1), (true, 0), (true, 1), (true, -2), (true, 0xffff_ffff), (true, 255), (true, i64::MAX)]),
    (5, &[(false, 1), (false, OWN as i64), (false, 64), (false, -1), (false, 258), (false, i64::MIN)]),
    (5, &[(true, 64), (true, -1), (true, 258), (true, 2 + (1 << 32)), (true, i64::MAX)]),
];

/// What is known stays, and every later record is answered so.
#[test]
fn wrong_records() {
    let records = [start(), record(true, 2).to_vec(), record(true, OWN.into()).to_vec()].concat();
    for (before, wrong) in WRONG {
        for &(descriptor, number) in wrong {
            let mut reader = Reader::new(2).unwrap();
            let first = &records[..RECORD_BYTES * before];
            assert_eq!(reader.messages(first).filter(|message| *message != Message::Closed).count(), before);
            let known = reader.clone();
            assert_eq!(feed(&mut reader, descriptor, number), Message::Closed, "{before}: {descriptor} {number}");
            assert_eq!((reader.is_closed(), reader.due()), (true, Due::Closed));
            assert_eq!(reader.messages(&records).filter(|message| *message == Message::Closed).count(), 5);
            assert_eq!((reader.own_id(), reader.counts()), (known.own_id(), known.counts()));
            assert_eq!(*reader.progress(), Progress { due: 4, ..*known.progress() });
        }
    }
}

/// A byte of kind that is neither 0 nor 1 closes, and not before the record is whole.
#[test]
fn other_kinds() {
    for kind in [2, 3, 128, 255] {
        for records in 0..4 {
            let mut reader = Reader::new(2).unwrap();
            assert_eq!(reader.messages(&[start(), record(true, 2).to_vec()].concat()[..9 * records]).count(), records);
            let mut wrong = record(false, [0, 5, -1, 2][records]);
            wrong[0] = kind;
            assert_eq!(reader.read(&wrong[..8]), Read { message: Message::More, taken: 8 });
            assert!(!reader.is_closed());
            assert_eq!(reader.read(&wrong[8..]), Read { message: Message::Closed, taken: 1 });
        }
    }
}

/// A record cut behind each of its bytes, with others behind it in the second piece.
#[test]
fn cut_at_each_byte() {
    let records = [start(), record(true, 2).to_vec(), record(false, 2).to_vec(), vec![0xee; 9]].concat();
    for at in 0..records.len() {
        let (first, second) = records.split_at(at);
        let mut reader = Reader::new(2).unwrap();
        let mut whole = reader.clone();
        let mut messages: Vec<_> = reader.messages(first).collect();
        assert_eq!(messages.len(), at / RECORD_BYTES);
        let held = at % RECORD_BYTES;
        assert_eq!(reader.progress().held, held);
        assert_eq!(reader.progress().bytes[..held], first[at - held..]);
        assert_eq!(reader.progress().bytes[held..], [0; 8][held..]);

        // The call takes what is missing of the record, and no more.
        let Read { message, taken } = reader.read(second);
        assert_eq!(taken, RECORD_BYTES - held);
        assert_eq!((reader.progress().held, reader.progress().bytes), (0, [0; 8]));
        messages.push(message);
        messages.extend(reader.messages(&second[taken..]));
        assert_eq!(messages, whole.messages(&records).collect::<Vec<_>>());
        assert_eq!(reader, whole);
    }
}

#[test]
fn single_bytes_and_none() {
    let mut reader = Reader::new(2).unwrap();
    for (at, byte) in start().into_iter().enumerate() {
        let before = reader.clone();
        assert_eq!(reader.read(&[]), Read { message: Message::More, taken: 0 });
        assert_eq!(reader, before);
        let Read { message, taken } = reader.read(&[byte]);
        assert_eq!(taken, 1);
        assert_eq!(message == Message::More, at % RECORD_BYTES != 8);
    }
    assert_eq!(reader, started(2));
}

/// Who stops asking for messages finds what is left, and can go on there.
#[test]
fn messages_that_are_not_asked_for() {
    let stream = [start(), record(true, 2)[..4].to_vec()].concat();
    let mut reader = Reader::new(2).unwrap();
    let mut messages = reader.messages(&stream);
    assert_eq!(messages.rest(), stream);
    assert_eq!(messages.next(), Some(Message::Version));
    let rest = messages.rest();
    assert_eq!((rest, reader.due()), (&stream[9..], Due::Id));
    let mut messages = reader.messages(rest);
    assert_eq!(messages.by_ref().count(), 2);
    assert_eq!((messages.rest(), messages.next()), (&[][..], None));
    assert_eq!(reader.progress().held, 4);
}

/// The compiler warns of what is dropped, here and in each line of it.
#[test]
fn dropped_answers() {
    let mut reader = Reader::new(1).unwrap();
    #[expect(unused_must_use)]
    reader.read(&[]);
    #[expect(unused_must_use)]
    reader.messages(&[]);
    #[expect(unused_must_use)]
    Reader::new(1);
    #[expect(unused_must_use)]
    raw::read(Progress::default(), &mut [0; IDS], 1, &[]);
}

const _: () = {
    const fn sent_and_shared<T: Send + Sync>() {}
    sent_and_shared::<Reader>();
    sent_and_shared::<Progress>();
};

#[test]
fn vectors_refused() {
    for vectors in [0, 17, 18, 255, 256, 257, (1 << 32) + 1, u64::MAX] {
        assert_eq!(Reader::new(vectors), Err(Refusal::BadVectors));
    }
    assert!((1..=MAX_VECTORS).all(|vectors| Reader::new(vectors).is_ok()));
}

/// A call that has to be refused with this number, and has to change nothing.
fn is_refused(number: u32, progress: Progress, counts: &[u8], vectors: u64) {
    for input in [&[][..], &record(true, 1), &start()] {
        let mut after = counts.to_vec();
        let answer = raw::read(progress, &mut after, vectors, input);
        assert_eq!(answer, Answer { number, progress, ..Answer::default() }, "{counts:?}, {vectors} vectors");
        assert_eq!(after, counts);
    }
}

/// What is not refused.
fn is_taken(progress: Progress, counts: &[u8], vectors: u64) {
    let answer = raw::read(progress, &mut counts.to_vec(), vectors, &[]);
    assert_eq!(answer, Answer { progress, ..Answer::default() }, "{counts:?}, {vectors} vectors");
}

const BAD: Progress = Progress { due: 5, own: 64, held: 9, bytes: [7; 8] };

#[test]
fn buffers_refused() {
    for length in [0, 1, 63, 65, 128, 64 << 8] {
        is_refused(2, Progress::default(), &vec![0; length], 1);
        is_refused(2, BAD, &vec![17; length], 16);
        is_refused(1, BAD, &vec![17; length], 17);
        is_refused(1, Progress::default(), &vec![0; length], 0);
    }
    is_refused(1, BAD, &[255; IDS], u64::MAX);
    is_refused(10, BAD, &[17; IDS], 16);
}

/// Each clause of number 10, and what is just not refused by it.
#[test]
fn progress_refused() {
    let at = |due| Progress { due, ..Progress::default() };
    let none = [0; IDS];
    for due in [5, 6, 255, 256, 1 << 16, u32::MAX] {
        is_refused(10, at(due), &none, 1);
    }
    for due in 0..=4 {
        is_taken(at(due), &none, 1);
        for own in [64, 255, 256, 1 << 16, u32::MAX] {
            is_refused(10, Progress { own, ..at(due) }, &none, 1);
        }
        for held in [9, 10, 256, 1 << 32, usize::MAX] {
            is_refused(10, Progress { held, ..at(due) }, &none, 1);
        }
        for held in 0..=8 {
            is_taken(Progress { held, bytes: [0xee; 8], ..at(due) }, &none, 1);
        }
        for own in [1, 63] {
            let progress = Progress { own, ..at(due) };
            if due < 2 { is_refused(10, progress, &none, 1) } else { is_taken(progress, &none, 1) }
        }
    }
}

#[test]
fn counts_refused() {
    for (due, id, vectors) in (0..=4).flat_map(|due| [0, 31, 63].map(|id| (due, id, [1, 2, 16][id % 3]))) {
        let counts = |count| {
            let mut counts = [0; IDS];
            counts[id] = count;
            counts
        };
        let progress = Progress { due, ..Progress::default() };
        for above in [vectors as u8 + 1, 128, 255] {
            is_refused(10, progress, &counts(above), vectors);
        }
        for within in [1, vectors as u8] {
            if due < 3 {
                is_refused(10, progress, &counts(within), vectors);
            } else {
                is_taken(progress, &counts(within), vectors);
            }
        }
    }
}

/// A closed reader's record may say anything in its ranges, and so may the bytes that are held.
#[test]
fn any_closed_progress() {
    let progress = Progress { due: 4, own: 63, held: 3, bytes: [0xee; 8] };
    let mut counts = [16; IDS];
    let answer = raw::read(progress, &mut counts, 16, &[1; 5]);
    let bytes = [0xee, 0xee, 0xee, 1, 1, 1, 1, 1];
    assert_eq!(answer, Answer { taken: 5, progress: Progress { held: 8, bytes, ..progress }, ..Answer::default() });
    // Bytes behind those that are held stay.
    let answer = raw::read(progress, &mut counts, 16, &[1]);
    assert_eq!(answer.progress.bytes, [0xee, 0xee, 0xee, 1, 0xee, 0xee, 0xee, 0xee]);
    let answer = raw::read(progress, &mut counts, 16, &[1; 20]);
    let after = Progress { held: 0, bytes: [0; 8], ..progress };
    assert_eq!(answer, Answer { message: 7, taken: 6, progress: after, ..Answer::default() });
    assert_eq!(counts, [16; IDS]);
}
