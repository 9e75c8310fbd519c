//! Every method of the server's wrapper, what each message is, and every refusal, on the linked library.

use ivshmem_protocol::raw::{self, Served, Started};
use ivshmem_protocol::{
    BUFFER_BYTES, Descriptor, IDS, MAX_SENT, MAX_VECTORS, Message, Reader, Refusal, SENT_BYTES, Sent, Server, record,
};

/// What a buffer holds before a call.
const BEFORE: u8 = 0xee;

/// A server that so many clients have joined.
fn with_clients(clients: usize, vectors: u64) -> Server {
    let mut server = Server::new(vectors).unwrap();
    for id in 0..clients {
        assert_eq!(usize::from(server.join(&mut [0; BUFFER_BYTES]).unwrap().id), id);
    }
    server
}

/// The ids that are joined.
fn joined(server: &Server) -> Vec<u8> {
    server.joined().collect()
}

/// So many vectors of an id, as they are sent to a client.
fn vectors_to(client: u8, id: u8, vectors: u64) -> impl Iterator<Item = (u8, Message)> {
    (1..=vectors as u8).map(move |count| (client, Message::Vector { id, count }))
}

#[test]
fn first_join() {
    let mut server = Server::new(3).unwrap();
    assert_eq!((server.vectors(), server.to_raw()), (3, raw::Server { joined: 0, vectors: 3 }));
    assert_eq!(joined(&server), []);
    let mut buffer = [BEFORE; BUFFER_BYTES];
    let client = server.join(&mut buffer).unwrap();
    assert_eq!((client.id, client.messages.len()), (0, 6));
    let sent: Vec<_> = client.messages.map(|sent| (sent.client, sent.message)).collect();
    let start = [(0, Message::Version), (0, Message::Id(0)), (0, Message::Memory)];
    assert_eq!(sent, start.into_iter().chain(vectors_to(0, 0, 3)).collect::<Vec<_>>());
    assert!(buffer[6 * SENT_BYTES..].iter().all(|&byte| byte == BEFORE));
    assert_eq!((joined(&server), server.to_raw().joined), (vec![0], 1));
}

#[test]
fn join_beside_others() {
    for vectors in 1..=MAX_VECTORS {
        let mut server = with_clients(3, vectors);
        let mut buffer = [0; BUFFER_BYTES];
        let _ = server.leave(1, &mut buffer).unwrap();
        let client = server.join(&mut buffer).unwrap();
        assert_eq!(client.id, 1, "the free id");
        let start = [(1, Message::Version), (1, Message::Id(1)), (1, Message::Memory)].into_iter();
        let own = [0, 2, 1].into_iter().flat_map(|id| vectors_to(1, id, vectors));
        let others = [0, 2].into_iter().flat_map(|other| vectors_to(other, 1, vectors));
        let sent: Vec<_> = client.messages.map(|sent| (sent.client, sent.message)).collect();
        assert_eq!(sent, start.chain(own).chain(others).collect::<Vec<_>>());
    }
}

/// The record of a message, by what it says.
fn as_record(message: Message) -> [u8; 9] {
    match message {
        Message::Version => record(false, 0),
        Message::Id(id) | Message::Disconnected { id } => record(false, id.into()),
        Message::Memory => record(true, -1),
        Message::Vector { id, .. } => record(true, id.into()),
        other => panic!("{other:?} is sent"),
    }
}

/// Record, bytes and descriptor of each message say the same.
fn is_in_order(sent: &Sent) {
    assert_eq!(sent.record, as_record(sent.message));
    assert_eq!(sent.bytes(), sent.record[1..]);
    let descriptor = match sent.message {
        Message::Memory => Some(Descriptor::Memory),
        Message::Vector { id, count } => Some(Descriptor::Vector { id, vector: count - 1 }),
        _ => None,
    };
    assert_eq!(sent.descriptor(), descriptor);
    assert_eq!(sent.record[0], u8::from(descriptor.is_some()));
}

/// Every message is what the reader of its client answers, from the first join until the last has left.
#[test]
fn readers_agree() {
    for vectors in [1, 2, 16] {
        let mut server = Server::new(vectors).unwrap();
        let mut buffer = [0; BUFFER_BYTES];
        let mut readers = vec![Reader::new(vectors).unwrap(); IDS];
        let mut hear = |sent: Sent| {
            is_in_order(&sent);
            assert_eq!(readers[usize::from(sent.client)].read(&sent.record).message, sent.message);
        };
        for _ in 0..IDS {
            server.join(&mut buffer).unwrap().messages.for_each(&mut hear);
        }
        for id in (0..IDS as u8).rev() {
            server.leave(id, &mut buffer).unwrap().for_each(&mut hear);
        }
        // Client 0 was the last.
        assert_eq!(readers[0].counts().iter().filter(|&&count| count > 0).count(), 1);
        assert!(readers.iter().zip(0..).all(|(reader, id)| reader.own_id() == Some(id) && !reader.is_closed()));
    }
}

#[test]
fn leave_of_one() {
    let mut server = with_clients(4, 2);
    let mut buffer = [BEFORE; BUFFER_BYTES];
    let messages = server.leave(2, &mut buffer).unwrap();
    let told = messages.rest();
    let sent: Vec<_> = messages.inspect(is_in_order).map(|sent| (sent.client, sent.message)).collect();
    assert_eq!(sent, [0, 1, 3].map(|client| (client, Message::Disconnected { id: 2 })));
    assert_eq!(told, [0, 1, 3].map(|client| [&[client][..], &record(false, 2)].concat()).concat());
    assert!(buffer[3 * SENT_BYTES..].iter().all(|&byte| byte == BEFORE));
    assert_eq!(joined(&server), [0, 1, 3]);

    let mut alone = with_clients(1, 2);
    assert_eq!(alone.leave(0, &mut buffer).unwrap().len(), 0);
    assert_eq!(joined(&alone), []);
}

/// Who goes through some of the messages finds the others.
#[test]
fn messages_one_by_one() {
    let mut buffer = [0; BUFFER_BYTES];
    let mut server = with_clients(1, 1);
    let mut messages = server.join(&mut buffer).unwrap().messages;
    for left in (0..6).rev() {
        assert_eq!(messages.size_hint(), (left + 1, Some(left + 1)));
        assert!(messages.next().is_some());
        assert_eq!((messages.len(), messages.rest().len()), (left, left * SENT_BYTES));
    }
    assert_eq!((messages.next(), messages.next()), (None, None));
}

#[test]
fn largest_join() {
    let mut server = with_clients(IDS - 1, MAX_VECTORS);
    let mut buffer = [BEFORE; BUFFER_BYTES + 1];
    let client = server.join(&mut buffer).unwrap();
    assert_eq!((client.id, client.messages.len()), (63, MAX_SENT));
    assert_eq!(client.messages.rest().len(), BUFFER_BYTES);
    client.messages.for_each(|sent| is_in_order(&sent));
    assert_eq!(buffer[BUFFER_BYTES], BEFORE);
    assert_eq!(server.join(&mut buffer).unwrap_err(), Refusal::Full);
}

#[test]
fn who_is_joined() {
    let server = Server::from_raw(raw::Server { joined: 1 | 1 << 5 | 1 << 63, vectors: 1 }).unwrap();
    assert_eq!(joined(&server), [0, 5, 63]);
    assert!((0..=255).all(|id| server.is_joined(id) == [0, 5, 63].contains(&id)));
    let all = Server::from_raw(raw::Server { joined: u64::MAX, vectors: 16 }).unwrap();
    assert_eq!(joined(&all), (0..64).collect::<Vec<_>>());
    assert!((0..=255).all(|id| all.is_joined(id) == (id < 64)));
}

#[test]
fn states_that_are_kept() {
    for (joined, vectors) in [0, 1, 1 << 63, u64::MAX].into_iter().flat_map(|joined| (1..=16).map(move |v| (joined, v)))
    {
        let state = raw::Server { joined, vectors };
        assert_eq!(Server::from_raw(state).unwrap().to_raw(), state);
    }
    let server = with_clients(9, 4);
    assert_eq!(Server::from_raw(server.to_raw()), Ok(server));
}

const NO_VECTORS: [u64; 8] = [0, 17, 18, 255, 256, 257, (1 << 32) + 1, u64::MAX];

#[test]
fn vectors_refused() {
    for vectors in NO_VECTORS {
        assert_eq!(Server::new(vectors), Err(Refusal::BadVectors));
        assert_eq!(raw::start(vectors), Started { number: 1, server: raw::Server::default() });
        for joined in [0, 5, u64::MAX] {
            assert_eq!(Server::from_raw(raw::Server { joined, vectors }), Err(Refusal::BadServer));
        }
    }
    for vectors in 1..=MAX_VECTORS {
        let server = raw::Server { joined: 0, vectors };
        assert_eq!(raw::start(vectors), Started { number: 0, server });
    }
}

/// Both calls have to be refused with these numbers, and have to change nothing.
fn are_refused(numbers: [u32; 2], server: raw::Server, id: u64, length: usize) {
    let mut buffer = vec![BEFORE; length];
    let answers = [raw::join(server, &mut buffer), raw::leave(server, id, &mut buffer)];
    assert_eq!(answers, numbers.map(|number| Served { number, server, ..Served::default() }), "{length} bytes");
    assert!(buffer.iter().all(|&byte| byte == BEFORE));
}

/// The state before the buffer, and both before who is joined.
#[test]
fn calls_refused() {
    for (joined, id) in [(0, 0), (5, 0), (u64::MAX, 0), (u64::MAX, 64), (u64::MAX, u64::MAX), (!1, 0), (1, 256)] {
        for length in [0, 1, 10, BUFFER_BYTES - 1, BUFFER_BYTES, 2 * BUFFER_BYTES] {
            for vectors in NO_VECTORS {
                are_refused([10; 2], raw::Server { joined, vectors }, id, length);
            }
        }
        for length in [0, 1, 10, 60, BUFFER_BYTES - 1] {
            are_refused([11; 2], raw::Server { joined, vectors: 1 }, id, length);
        }
    }
    for id in [64, 65, 128, 256, 1 << 32, 1 << 63, u64::MAX] {
        are_refused([12, 4], raw::Server { joined: u64::MAX, vectors: 16 }, id, BUFFER_BYTES);
    }
}

#[test]
fn calls_of_the_wrapper_refused() {
    let mut server = with_clients(IDS, 1);
    let before = server.clone();
    let mut buffer = [BEFORE; BUFFER_BYTES];
    assert_eq!(server.join(&mut buffer).unwrap_err(), Refusal::Full);
    assert_eq!(server.join(&mut buffer[1..]).unwrap_err(), Refusal::ShortBuffer);
    assert_eq!(server.leave(3, &mut buffer[1..]).unwrap_err(), Refusal::ShortBuffer);
    for id in 64..=255 {
        assert_eq!(server.leave(id, &mut buffer).unwrap_err(), Refusal::NotJoined);
    }
    assert_eq!((&server, buffer), (&before, [BEFORE; BUFFER_BYTES]));
    assert_eq!(server.leave(3, &mut buffer).unwrap().len(), 63);
    assert_eq!(server.leave(3, &mut buffer).unwrap_err(), Refusal::NotJoined);
}

/// The compiler warns of what is dropped, here and in each line of it.
#[test]
fn dropped_answers() {
    let mut buffer = [0; BUFFER_BYTES];
    let mut server = Server::new(1).unwrap();
    #[expect(unused_must_use)]
    server.join(&mut buffer);
    #[expect(unused_must_use)]
    server.join(&mut buffer).unwrap();
    #[expect(unused_must_use)]
    server.leave(0, &mut buffer).unwrap();
    #[expect(unused_must_use)]
    Server::new(1);
    #[expect(unused_must_use)]
    raw::start(1);
    #[expect(unused_must_use)]
    raw::join(server.to_raw(), &mut buffer);
    #[expect(unused_must_use)]
    raw::leave(server.to_raw(), 1, &mut buffer);
}

const _: () = {
    const fn sent_and_shared<T: Send + Sync>() {}
    sent_and_shared::<Server>();
    sent_and_shared::<raw::Server>();
};
