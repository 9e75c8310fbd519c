//! Wrong servers, each with one slip: the comparison must find every one, and those that a client can notice must be found by the
//! readers of the clients too.

use std::collections::BTreeSet;

use ivshmem_protocol::raw::{Served, Server, Started};
use protocol_model::Serving;
use protocol_model::server::{self, Act, MODEL, Message, ROOM, SENT, clients, compare, join, leave, start, write};

type Join = fn(Server, &mut [u8]) -> Served;
type Leave = fn(Server, u64, &mut [u8]) -> Served;

/// Makes calls until the slip shows, and prints the one that shows it. The library answers that call rightly.
fn is_found(name: &str, wrong: Serving) {
    let Err((failure, calls)) = compare::run(&wrong, 3, 100_000) else { panic!("{name}: not found") };
    println!("{name}: found after {calls} calls\n{failure}\n");
    assert!(failure.is_shown_by(&wrong), "{name}: the call fails by itself");
    assert!(!failure.is_shown_by(&Serving::LIBRARY), "{name}: the library does not make this slip");
}

/// A slip that a client notices, without the model.
fn is_found_by_clients(name: &str, wrong: Serving) {
    is_found(name, wrong);
    assert!(clients::run(&wrong, 3, 20_000).is_err(), "{name}: no client notices it");
}

/// The slip is in a start.
fn start_is_found(name: &str, start: fn(u64) -> Started) {
    is_found(name, Serving { start, ..MODEL });
}

/// The slip is in a join.
fn join_is_found(name: &str, join: Join) {
    is_found(name, Serving { join, ..MODEL });
}

/// The slip is in a leave.
fn leave_is_found(name: &str, leave: Leave) {
    is_found(name, Serving { leave, ..MODEL });
}

/// The slip is in a join, and clients notice it.
fn clients_find_join(name: &str, join: Join) {
    is_found_by_clients(name, Serving { join, ..MODEL });
}

/// The slip is in a leave, and clients notice it.
fn clients_find_leave(name: &str, leave: Leave) {
    is_found_by_clients(name, Serving { leave, ..MODEL });
}

/// What the model answers where a call is taken, but with other messages. The change is made with the id that joins or leaves.
fn told(server: Server, act: Act, buffer: &mut [u8], change: impl FnOnce(&mut Vec<Message>, u64)) -> Served {
    let mut model = server::Server::of(server);
    let Ok((id, mut messages)) = model.serve(act, buffer.len()) else { return MODEL.serve(server, act, buffer) };
    change(&mut messages, id);
    write(&messages, buffer);
    Served { number: 0, id: id as u32, messages: messages.len(), server: model.state() }
}

/// A join whose messages are changed.
fn welcomed(server: Server, buffer: &mut [u8], change: impl FnOnce(&mut Vec<Message>, u64)) -> Served {
    told(server, Act::Join, buffer, change)
}

/// A leave whose messages are changed.
fn dismissed(server: Server, id: u64, buffer: &mut [u8], change: impl FnOnce(&mut Vec<Message>)) -> Served {
    told(server, Act::Leave(id), buffer, |messages, _| change(messages))
}

/// A join whose messages behind the start, to the new client and to others, are changed each.
fn each(server: Server, buffer: &mut [u8], change: impl Fn(&mut Message)) -> Served {
    welcomed(server, buffer, |messages, _| messages[3..].iter_mut().for_each(change))
}

/// The messages to the new client, and those to the others.
fn parted(messages: &[Message], id: u64) -> (Vec<Message>, Vec<Message>) {
    messages.iter().partition(|message| message.client == id)
}

/// A join that gives the id that is chosen for those who are joined.
fn named(server: Server, buffer: &mut [u8], choose: impl Fn(&BTreeSet<u64>) -> u64) -> Served {
    let other = choose(&server::Server::of(server).joined).min(63);
    let mut answer = welcomed(server, buffer, |messages, id| {
        let is_own = |message: &Message| message.client == id;
        messages.iter_mut().filter(|message| is_own(message)).for_each(|message| message.client = other);
        let numbers = messages.iter_mut().skip(1).map(|message| &mut message.number);
        numbers.filter(|number| **number == id as i64).for_each(|number| *number = other as i64);
    });
    if answer.number == 0 {
        (answer.id, answer.server.joined) = (other as u32, server.joined | 1 << other);
    }
    answer
}

/// What the slips are put into makes none.
#[test]
fn the_model_is_right() {
    assert!(compare::run(&MODEL, 3, 20_000).is_ok());
    assert!(clients::run(&MODEL, 3, 20_000).is_ok());
}

#[test]
fn gives_wrong_ids() {
    join_is_found("the next id and not the lowest free one", |server, buffer| {
        named(server, buffer, |joined| joined.last().map_or(0, |last| last + 1))
    });
    join_is_found("the highest free id", |server, buffer| {
        named(server, buffer, |joined| (0..64).rev().find(|id| !joined.contains(id)).unwrap_or_default())
    });
    join_is_found("an id is not taken again while there is one above all others", |server, buffer| {
        named(server, buffer, |joined| {
            let lowest = (0..64).find(|id| !joined.contains(id)).unwrap_or_default();
            joined.last().map_or(0, |&last| if last < 63 { last + 1 } else { lowest })
        })
    });
    join_is_found("the second of the free ids", |server, buffer| {
        named(server, buffer, |joined| (0..64).filter(|id| !joined.contains(id)).nth(1).unwrap_or_default())
    });
    join_is_found("ids from 1 on", |server, buffer| {
        named(server, buffer, |joined| (1..64).find(|id| !joined.contains(id)).unwrap_or_default())
    });
    clients_find_join("as many as are joined", |server, buffer| named(server, buffer, |joined| joined.len() as u64));
    clients_find_join("one more than it is told", |server, buffer| {
        let answer = join(server, buffer);
        Served { id: answer.id + u32::from(answer.number == 0), ..answer }
    });
}

#[test]
fn orders_wrongly() {
    join_is_found("the new client's messages last", |server, buffer| {
        welcomed(server, buffer, |messages, id| {
            let (own, others) = parted(messages, id);
            *messages = [others, own].concat();
        })
    });
    join_is_found("the new client's messages among the others'", |server, buffer| {
        welcomed(server, buffer, |messages, _| messages.sort_by_key(|message| message.client))
    });
    join_is_found("others of whom a client is told descending", |server, buffer| {
        let vectors = server.vectors as usize;
        welcomed(server, buffer, |messages, id| {
            let end = parted(messages, id).0.len() - vectors;
            messages[3..end].reverse();
        })
    });
    join_is_found("others who are told descending", |server, buffer| {
        welcomed(server, buffer, |messages, id| {
            let length = parted(messages, id).0.len();
            messages[length..].reverse();
        })
    });
    leave_is_found("those who are told of a leave descending", |server, id, buffer| {
        dismissed(server, id, buffer, |messages| messages.reverse())
    });
}

#[test]
fn orders_vectors_wrongly() {
    join_is_found("own vectors before the others'", |server, buffer| {
        let vectors = server.vectors as usize;
        welcomed(server, buffer, |messages, id| {
            let end = parted(messages, id).0.len();
            messages[3..end].rotate_right(vectors);
        })
    });
    join_is_found("first vectors before second ones", |server, buffer| {
        let vectors = server.vectors as usize;
        welcomed(server, buffer, |messages, id| {
            let (own, others) = parted(&messages[3..], id);
            let turned = (0..vectors).flat_map(|vector| own.iter().skip(vector).step_by(vectors)).copied();
            *messages = messages[..3].iter().copied().chain(turned).chain(others).collect();
        })
    });
}

#[test]
fn starts_wrongly() {
    clients_find_join("a version with a descriptor", |server, buffer| {
        welcomed(server, buffer, |messages, _| messages[0].descriptor = true)
    });
    clients_find_join("version 1", |server, buffer| welcomed(server, buffer, |messages, _| messages[0].number = 1));
    clients_find_join("an id with a descriptor", |server, buffer| {
        welcomed(server, buffer, |messages, _| messages[1].descriptor = true)
    });
    clients_find_join("the id is one too large", |server, buffer| {
        welcomed(server, buffer, |messages, _| messages[1].number += 1)
    });
    clients_find_join("memory 1", |server, buffer| welcomed(server, buffer, |messages, _| messages[2].number = 1));
    clients_find_join("memory without a descriptor", |server, buffer| {
        welcomed(server, buffer, |messages, _| messages[2].descriptor = false)
    });
    clients_find_join("the id before the version", |server, buffer| {
        welcomed(server, buffer, |messages, _| messages.swap(0, 1))
    });
    clients_find_join("the memory before the id", |server, buffer| {
        welcomed(server, buffer, |messages, _| messages.swap(1, 2))
    });
    clients_find_join("the memory last", |server, buffer| {
        welcomed(server, buffer, |messages, id| {
            let end = parted(messages, id).0.len();
            messages[2..end].rotate_left(1);
        })
    });
    clients_find_join("no version", |server, buffer| {
        welcomed(server, buffer, |messages, _| {
            messages.remove(0);
        })
    });
}

#[test]
fn connects_wrongly() {
    clients_find_join("own vectors are left out", |server, buffer| {
        welcomed(server, buffer, |messages, id| {
            let mut at = 0..;
            messages.retain(|message| at.next() < Some(3) || (message.client, message.number) != (id, id as i64));
        })
    });
    clients_find_join("the others are not told", |server, buffer| {
        welcomed(server, buffer, |messages, id| messages.retain(|message| message.client == id))
    });
    clients_find_join("the new client is not told of the others", |server, buffer| {
        welcomed(server, buffer, |messages, id| {
            let mut at = 0..;
            messages.retain(|message| at.next() < Some(3) || message.number == id as i64);
        })
    });
    clients_find_join("the others are told of one vector", |server, buffer| {
        welcomed(server, buffer, |messages, id| {
            let (own, mut others) = parted(messages, id);
            others.dedup();
            *messages = [own, others].concat();
        })
    });
}

#[test]
fn connects_too_often_or_too_seldom() {
    clients_find_join("one vector too few for each", |server, buffer| {
        let vectors = server.vectors;
        with_vectors(server, Act::Join, buffer, if (2..=16).contains(&vectors) { vectors - 1 } else { vectors })
    });
    clients_find_join("one vector too many for the last client", |server, buffer| {
        welcomed(server, buffer, |messages, _| messages.extend(messages.last().copied()))
    });
    clients_find_join("the last of the others is not told", |server, buffer| {
        let vectors = server.vectors as usize;
        welcomed(server, buffer, |messages, _| messages.truncate(messages.len().max(3 + 2 * vectors) - vectors))
    });
    clients_find_join("vectors without a descriptor", |server, buffer| {
        each(server, buffer, |message| message.descriptor = false)
    });
    clients_find_join("each client is told of itself", |server, buffer| {
        each(server, buffer, |message| message.number = message.client as i64)
    });
    clients_find_join("vectors of the id above", |server, buffer| each(server, buffer, |message| message.number += 1));
    clients_find_join("all messages to the new client", |server, buffer| {
        welcomed(server, buffer, |messages, id| messages.iter_mut().for_each(|message| message.client = id))
    });
}

#[test]
fn lets_leave_wrongly() {
    clients_find_leave("a message to the leaver", |server, id, buffer| {
        dismissed(server, id, buffer, |messages| {
            messages.push(Message { client: id, descriptor: false, number: id as i64 });
            messages.sort_by_key(|message| message.client);
        })
    });
    clients_find_leave("a leave with a descriptor", |server, id, buffer| {
        dismissed(server, id, buffer, |messages| messages.iter_mut().for_each(|message| message.descriptor = true))
    });
    clients_find_leave("a leave for each vector", |server, id, buffer| {
        let vectors = server.vectors as usize;
        dismissed(server, id, buffer, |messages| {
            *messages = messages.iter().flat_map(|message| vec![*message; vectors]).collect();
        })
    });
    clients_find_leave("a leave of who is told of it", |server, id, buffer| {
        dismissed(server, id, buffer, |messages| {
            messages.iter_mut().for_each(|message| message.number = message.client as i64);
        })
    });
    clients_find_leave("only those below are told", |server, id, buffer| {
        dismissed(server, id, buffer, |messages| messages.retain(|message| message.client < id))
    });
    clients_find_leave("ids that are not joined are told", |server, id, buffer| {
        dismissed(server, id, buffer, |messages| {
            *messages = (0..64).map(|client| Message { client, descriptor: false, number: id as i64 }).collect();
        })
    });
    clients_find_leave("who leaves stays joined", |server, id, buffer| Served { server, ..leave(server, id, buffer) });
    clients_find_join("who joins is not joined", |server, buffer| Served { server, ..join(server, buffer) });
    clients_find_leave("a leave answers id 0", |server, id, buffer| Served { id: 0, ..leave(server, id, buffer) });
}

/// An answer after whose call the messages' bytes are changed.
fn written(answer: Served, buffer: &mut [u8], change: impl Fn(&mut [u8])) -> Served {
    buffer.chunks_exact_mut(SENT).take(answer.messages).for_each(change);
    answer
}

#[test]
fn writes_wrongly() {
    clients_find_join("numbers with their highest byte first", |server, buffer| {
        written(join(server, buffer), buffer, |sent| sent[2..].reverse())
    });
    clients_find_join("numbers in 32 bits", |server, buffer| {
        written(join(server, buffer), buffer, |sent| sent[6..].fill(0))
    });
    clients_find_join("the client behind the record", |server, buffer| {
        written(join(server, buffer), buffer, |sent| sent.rotate_left(1))
    });
    clients_find_leave("kinds turned over", |server, id, buffer| {
        written(leave(server, id, buffer), buffer, |sent| sent[1] ^= 1)
    });
    join_is_found("the bytes behind the messages are cleared", |server, buffer| {
        let answer = join(server, buffer);
        buffer[SENT * answer.messages..].fill(0);
        answer
    });
    leave_is_found("the message behind the last is cleared", |server, id, buffer| {
        let answer = leave(server, id, buffer);
        buffer.iter_mut().skip(SENT * answer.messages).take(SENT).for_each(|byte| *byte = 0);
        answer
    });
    leave_is_found("the last byte of the buffer is cleared", |server, id, buffer| {
        let answer = leave(server, id, buffer);
        buffer.last_mut().into_iter().for_each(|byte| *byte = 0);
        answer
    });
}

#[test]
fn counts_wrongly() {
    clients_find_join("one message too few", |server, buffer| {
        let answer = join(server, buffer);
        Served { messages: answer.messages.saturating_sub(1), ..answer }
    });
    clients_find_leave("one leave too few", |server, id, buffer| {
        let answer = leave(server, id, buffer);
        Served { messages: answer.messages.saturating_sub(1), ..answer }
    });
    leave_is_found("bytes and not messages", |server, id, buffer| {
        let answer = leave(server, id, buffer);
        Served { messages: SENT * answer.messages, ..answer }
    });
}

/// The model's answer, but where both of these numbers apply the second.
fn swapped(server: Server, act: Act, buffer: &mut [u8], numbers: [u32; 2]) -> Served {
    let mut answer = MODEL.serve(server, act, buffer);
    let all = server::Server::of(server).refusals(act, buffer.len());
    if answer.number == numbers[0] && all.contains(&numbers[1]) {
        answer.number = numbers[1];
    }
    answer
}

#[test]
fn refuses_in_another_order() {
    join_is_found("a join's buffer before the state", |server, buffer| swapped(server, Act::Join, buffer, [10, 11]));
    leave_is_found("a leave's buffer before the state", |server, id, buffer| {
        swapped(server, Act::Leave(id), buffer, [10, 11])
    });
    join_is_found("full before the state", |server, buffer| swapped(server, Act::Join, buffer, [10, 12]));
    join_is_found("full before the buffer", |server, buffer| swapped(server, Act::Join, buffer, [11, 12]));
    leave_is_found("the id before the state", |server, id, buffer| swapped(server, Act::Leave(id), buffer, [10, 4]));
    leave_is_found("the id before the buffer", |server, id, buffer| swapped(server, Act::Leave(id), buffer, [11, 4]));
}

/// The model's answer for another number of vectors in the state, which keeps its own.
fn with_vectors(server: Server, act: Act, buffer: &mut [u8], vectors: u64) -> Served {
    let mut answer = MODEL.serve(Server { vectors, ..server }, act, buffer);
    answer.server.vectors = server.vectors;
    answer
}

#[test]
fn takes_wrong_states() {
    join_is_found("a join with 17 vectors", |server, buffer| {
        with_vectors(server, Act::Join, buffer, if server.vectors == 17 { 16 } else { server.vectors })
    });
    leave_is_found("a leave with no vectors", |server, id, buffer| {
        with_vectors(server, Act::Leave(id), buffer, server.vectors.max(1))
    });
    join_is_found("a state's vectors cut to 32 bits", |server, buffer| {
        with_vectors(server, Act::Join, buffer, server.vectors & 0xffff_ffff)
    });
    leave_is_found("a state's vectors cut to 8 bits", |server, id, buffer| {
        with_vectors(server, Act::Leave(id), buffer, server.vectors & 0xff)
    });
    start_is_found("a start with 17 vectors", |vectors| {
        if vectors == 17 { Started { number: 0, server: Server { joined: 0, vectors } } } else { start(vectors) }
    });
    start_is_found("a start with vectors cut to 32 bits", |vectors| start(vectors & 0xffff_ffff));
    start_is_found("16 vectors are refused", |vectors| start(if vectors == 16 { 17 } else { vectors }));
    start_is_found("a server starts with somebody", |vectors| {
        let mut started = start(vectors);
        started.server.joined = (started.number == 0).into();
        started
    });
    start_is_found("a refused start keeps its number", |vectors| Started {
        server: Server { joined: 0, vectors },
        ..start(vectors)
    });
}

/// The model's answer for a long buffer, of which this one has the front.
fn squeezed(server: Server, act: Act, buffer: &mut [u8]) -> Served {
    let mut long = buffer.to_vec();
    long.resize(ROOM, 0);
    let answer = MODEL.serve(server, act, &mut long);
    buffer.copy_from_slice(&long[..buffer.len()]);
    answer
}

#[test]
fn takes_wrong_buffers() {
    join_is_found("a join's buffer of 20349 bytes", |server, buffer| match buffer.len() {
        20349 => squeezed(server, Act::Join, buffer),
        _ => join(server, buffer),
    });
    leave_is_found("a leave's buffer of 20349 bytes", |server, id, buffer| match buffer.len() {
        20349 => squeezed(server, Act::Leave(id), buffer),
        _ => leave(server, id, buffer),
    });
    leave_is_found("a leave's buffer that is long enough for it", |server, id, buffer| {
        let needed = SENT * server.joined.count_ones() as usize;
        if (needed..ROOM).contains(&buffer.len()) {
            squeezed(server, Act::Leave(id), buffer)
        } else {
            leave(server, id, buffer)
        }
    });
    join_is_found("a buffer of 20350 bytes is refused", |server, buffer| {
        let (length, vectors) = (buffer.len(), server.vectors);
        let refused = Served { number: 11, server, ..Served::default() };
        if length == ROOM && (1..=16).contains(&vectors) { refused } else { join(server, buffer) }
    });
}

/// The model's leave of another number, which it answers too.
fn cut_to(bits: u64, server: Server, id: u64, buffer: &mut [u8]) -> Served {
    leave(server, id % (1 << bits), buffer)
}

#[test]
fn takes_wrong_calls() {
    leave_is_found("64 leaves as 0", |server, id, buffer| cut_to(6, server, id, buffer));
    leave_is_found("an id cut to 8 bits", |server, id, buffer| cut_to(8, server, id, buffer));
    leave_is_found("an id cut to 32 bits", |server, id, buffer| cut_to(32, server, id, buffer));
    leave_is_found("an id that is not joined leaves", |server, id, buffer| {
        let answer = leave(server, id, buffer);
        if answer.number != 4 || id > 63 {
            return answer;
        }
        leave(Server { joined: server.joined | 1 << id, ..server }, id, buffer)
    });
    join_is_found("full with 63 clients", |server, buffer| {
        let refused = Served { number: 12, server, ..Served::default() };
        let is_taken = server::Server::of(server).refusals(Act::Join, buffer.len()).is_empty();
        if is_taken && server.joined.count_ones() == 63 { refused } else { join(server, buffer) }
    });
    join_is_found("a full server takes one more", |server, buffer| match join(server, buffer) {
        Served { number: 12, .. } => Served { number: 0, server, ..Served::default() },
        answer => answer,
    });
}

#[test]
fn changes_what_it_refuses() {
    join_is_found("a refused join writes the version", |server, buffer| {
        let answer = join(server, buffer);
        if answer.number == 12 {
            write(&[Message { client: 0, descriptor: false, number: 0 }], buffer);
        }
        answer
    });
    leave_is_found("a refused leave clears the buffer", |server, id, buffer| {
        let answer = leave(server, id, buffer);
        if answer.number == 4 {
            buffer.fill(0);
        }
        answer
    });
    leave_is_found("a refused leave answers its id", |server, id, buffer| {
        let answer = leave(server, id, buffer);
        Served { id: if answer.number == 0 { answer.id } else { id as u32 }, ..answer }
    });
    join_is_found("a full server has nobody joined any more", |server, buffer| match join(server, buffer) {
        Served { number: 12, .. } => Served { number: 12, server: Server { joined: 0, ..server }, ..Served::default() },
        answer => answer,
    });
    join_is_found("a refused state is all zero", |server, buffer| match join(server, buffer) {
        Served { number: 10, .. } => Served { number: 10, ..Served::default() },
        answer => answer,
    });
}
