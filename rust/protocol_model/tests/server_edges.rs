//! The linked library's joins and leaves against the model, without chance: servers that fill and empty, every hole and every
//! pair of holes, buffers that are just too short, and every bit of a state.

use std::io::Write;

use ivshmem_protocol::raw::{Served, Server};
use ivshmem_protocol::record;
use protocol_model::Serving;
use protocol_model::server::Act::{self, Join, Leave};
use protocol_model::server::compare::{self, Call};
use protocol_model::server::{ROOM, SENT};

/// Makes the call on both sides, with a buffer of so many bytes; the answer, and the messages in bytes.
fn agree_in(room: usize, server: Server, act: Act) -> (Served, Vec<u8>) {
    let call = Call { server, act, buffer: (0..room).map(|at| at as u8 ^ 0x5a).collect() };
    match compare::served(&Serving::LIBRARY, &call) {
        Ok((answer, left)) => (answer, left[..SENT * answer.messages].to_vec()),
        Err(text) => panic!("{server:?}, {act:?}, {room} bytes: {text}"),
    }
}

/// The same with the shortest buffer that is taken.
fn agree(server: Server, act: Act) -> (Served, Vec<u8>) {
    agree_in(ROOM, server, act)
}

/// The state after a call that is taken, and answers this id.
fn taken(server: Server, act: Act, id: u32) -> Server {
    let (answer, _) = agree(server, act);
    assert_eq!((answer.number, answer.id), (0, id), "{server:?}, {act:?}");
    answer.server
}

/// A call that is refused with this number.
fn refused(server: Server, act: Act, number: u32) {
    assert_eq!(agree(server, act), (Served { number, server, ..Served::default() }, Vec::new()));
}

/// Every number of vectors that a server has, with nobody joined.
fn servers() -> impl Iterator<Item = Server> {
    (1..=16).map(|vectors| Server { joined: 0, vectors })
}

/// A message to a client.
fn sent(client: u8, descriptor: bool, number: i64) -> Vec<u8> {
    [&[client][..], &record(descriptor, number)].concat()
}

#[test]
fn first_and_second_join() {
    for server in servers() {
        let of = |client: u8, id: i64| sent(client, true, id).repeat(server.vectors as usize);
        let start = |id: u8| [sent(id, false, 0), sent(id, false, id.into()), sent(id, true, -1)].concat();
        let (first, messages) = agree(server, Join);
        assert_eq!(first, Served { number: 0, id: 0, messages: 3 + server.vectors as usize, server: first.server });
        assert_eq!((first.server.joined, messages), (1, [start(0), of(0, 0)].concat()));
        let (second, messages) = agree(first.server, Join);
        assert_eq!((second.id, second.server.joined), (1, 3));
        assert_eq!(messages, [start(1), of(1, 0), of(1, 1), of(0, 1)].concat());
        let (last, messages) = agree(second.server, Leave(0));
        assert_eq!((last.id, last.server.joined, messages), (0, 2, sent(1, false, 0)));
    }
}

#[test]
fn sixty_four_joins_and_one_more() {
    for server in servers() {
        let (mut now, vectors) = (server, server.vectors as usize);
        for id in 0..64 {
            let (answer, _) = agree(now, Join);
            assert_eq!((answer.number, answer.id, answer.messages), (0, id, 3 + vectors + 2 * vectors * id as usize));
            now = answer.server;
        }
        assert_eq!(now, Server { joined: u64::MAX, vectors: server.vectors });
        refused(now, Join, 12);
        (64..300).chain([1 << 32, 1 << 63, u64::MAX]).for_each(|id| refused(now, Leave(id), 4));
        let up = (0..64).fold(now, |now, id| taken(now, Leave(id.into()), id));
        let down = (0..64).rev().fold(now, |now, id| taken(now, Leave(id.into()), id));
        assert_eq!([up, down], [server; 2]);
        (0..300).for_each(|id| refused(server, Leave(id), 4));
    }
}

#[test]
fn largest_join() {
    let server = Server { joined: u64::MAX >> 1, vectors: 16 };
    let (answer, messages) = agree(server, Join);
    assert_eq!((answer.id, answer.messages, messages.len()), (63, 2035, 20350));
    assert_eq!(messages[20340..], sent(62, true, 63));
}

/// Whoever has left, the lowest free id is the next, then the other.
#[test]
fn every_pair_of_holes() {
    let full = Server { joined: u64::MAX, vectors: 1 };
    for (low, high) in (0..64).flat_map(|low| (low + 1..64).map(move |high| (low, high))) {
        for [first, second] in [[low, high], [high, low]] {
            let left = taken(taken(full, Leave(first.into()), first), Leave(second.into()), second);
            let one = taken(left, Join, low);
            assert_eq!(taken(one, Join, high), full);
            refused(left, Leave(first.into()), 4);
        }
    }
}

#[test]
fn buffers_just_too_short() {
    for vectors in 0..20 {
        for joined in (0..64).map(|bits| (1 << bits) - 1).chain([u64::MAX]) {
            for act in [Join, Leave(0), Leave(63), Leave(64)] {
                let server = Server { joined, vectors };
                let (short, exact) = (agree_in(ROOM - 1, server, act).0.number, agree(server, act).0.number);
                let bad = !(1..=16).contains(&vectors);
                assert_eq!(short, if bad { 10 } else { 11 });
                let last = match act {
                    Join => {
                        if joined == u64::MAX {
                            12
                        } else {
                            0
                        }
                    }
                    Leave(id) => {
                        if id < 64 && joined >> id & 1 == 1 {
                            0
                        } else {
                            4
                        }
                    }
                };
                assert_eq!(exact, if bad { 10 } else { last });
            }
        }
    }
    let server = Server { joined: 5, vectors: 1 };
    for room in (0..300).chain(ROOM - 100..ROOM + 100) {
        for act in [Join, Leave(2), Leave(1)] {
            let number = agree_in(room, server, act).0.number;
            assert_eq!(number == 11, room < ROOM);
        }
    }
}

/// Every single bit set, every one clear, and every bit of some states turned over.
#[test]
fn every_bit() {
    let some = [0, u64::MAX, 0x8000_0000_0000_0001, 0x0123_4567_89ab_cdef, 0xff00_ff00_0f0f_5555];
    let (mut taken, mut refused) = (0, 0);
    for (joined, bit) in some.into_iter().flat_map(|joined| (0..128).map(move |bit| (joined, bit))) {
        for vectors in [1, 3, 16] {
            let flipped = match bit {
                0..64 => Server { joined: joined ^ 1 << bit, vectors },
                _ => Server { joined, vectors: vectors ^ 1 << (bit - 64) },
            };
            for act in [Join, Leave(0), Leave(bit % 64), Leave(bit), Leave(1 << (bit % 64))] {
                *(if agree(flipped, act).0.number == 0 { &mut taken } else { &mut refused }) += 1;
            }
        }
    }
    // Printed past the test's capture, so that every run shows it.
    let _ = writeln!(std::io::stdout().lock(), "server edges: {taken} with a bit changed taken, {refused} refused");
    assert!(taken >= 1_000 && refused >= 1_000);
}

#[test]
fn every_small_number_of_vectors() {
    let far = (4..64).flat_map(|bit| [0, 1, 16].map(|low| (1u64 << bit) + low));
    for vectors in (0..300).chain(far).chain([u64::MAX]) {
        let is_number = (1..=16).contains(&vectors);
        assert_eq!(compare::started(&Serving::LIBRARY, vectors), Ok(u32::from(!is_number)));
        for act in [Join, Leave(0)] {
            assert_eq!(agree(Server { joined: 1, vectors }, act).0.number, if is_number { 0 } else { 10 });
        }
    }
}
