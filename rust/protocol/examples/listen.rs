//! A client of the old server: a canned stream, cut as a socket may cut it, and each message in words.

use ivshmem_protocol::{Message, Reader, Refusal, record};

/// What the server sends to client 3, which is configured for two vectors: the start, peers 1 and 7, the client's own vectors, a
/// peer that leaves and comes back; at the end a peer that leaves twice, and one more record behind it.
const STREAM: [[u8; 9]; 14] = [
    record(false, 0),
    record(false, 3),
    record(true, -1),
    record(true, 1),
    record(true, 1),
    record(true, 7),
    record(true, 7),
    record(true, 7),
    record(true, 3),
    record(true, 3),
    record(false, 7),
    record(true, 7),
    record(false, 1),
    record(false, 1),
];
const BEHIND: [u8; 9] = record(true, 7);

/// The lengths of the pieces, over and over.
const PIECES: [usize; 5] = [1, 8, 13, 30, 2];

fn in_words(message: Message, own: Option<u8>) -> String {
    let whose = |id| if own == Some(id) { "this client".to_string() } else { format!("peer {id}") };
    match message {
        Message::Version => "the version is 0".into(),
        Message::Id(id) => format!("this client has id {id}"),
        Message::Memory => "the shared memory is here".into(),
        Message::Vector { id, count } => format!("{} has vector {}", whose(id), count - 1),
        Message::Extra { id, count } => format!("{} has {count} vectors, and this one is closed", whose(id)),
        Message::Disconnected { id } => format!("{} has left", whose(id)),
        Message::Closed => "this is not in place: the connection is closed".into(),
        other => format!("an unknown message: {other:?}"),
    }
}

fn main() -> Result<(), Refusal> {
    let mut reader = Reader::new(2)?;
    let mut stream = STREAM.concat();
    stream.extend(BEHIND);
    let mut rest = &stream[..];
    for length in PIECES.into_iter().cycle() {
        let (piece, behind) = rest.split_at(length.min(rest.len()));
        println!("bytes in this piece: {}", piece.len());
        let messages: Vec<_> = reader.messages(piece).collect();
        for message in messages {
            println!("    {}", in_words(message, reader.own_id()));
        }
        rest = behind;
        if rest.is_empty() {
            break;
        }
    }
    for (id, count) in reader.counts().iter().enumerate().filter(|(_, count)| **count > 0) {
        println!("id {id} has {count} of {} vectors", reader.vectors());
    }
    println!("due: {:?}", reader.due());
    Ok(())
}
