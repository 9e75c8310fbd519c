//! The same stream, cut in two ways, must come to the same.

use ivshmem_protocol::Reader;
use ivshmem_protocol::raw::Progress;

use crate::Reading;
use crate::generate::{Generator, Stream};
use crate::reader::{RECORD, State};

/// A message without the rest of its answer: its number, id and count.
type Heard = (u32, u32, u32);

/// What a stream has come to: all messages but more, and the state at the end.
#[derive(Clone, Debug, PartialEq, Eq)]
pub struct Outcome {
    pub messages: Vec<Heard>,
    pub state: State,
}

/// Reads the pieces one after the other from this state.
///
/// # Errors
/// A call that is refused, or takes more than there is, or nothing where it answers a record.
pub fn outcome(reading: Reading, from: &State, vectors: u64, pieces: &[&[u8]]) -> Result<Outcome, String> {
    let mut reached = Outcome { messages: Vec::new(), state: from.clone() };
    for piece in pieces {
        let mut rest = *piece;
        loop {
            let answer = reading(reached.state.progress, &mut reached.state.counts, vectors, rest);
            reached.state.progress = answer.progress;
            rest = rest.get(answer.taken..).ok_or("more bytes are taken than there are")?;
            match (answer.number, answer.message, answer.taken) {
                (0, 0, _) => break,
                (0, _, 1..=RECORD) => reached.messages.push((answer.message, answer.id, answer.count)),
                _ => return Err(format!("not in order: {answer:?}")),
            }
        }
        if !rest.is_empty() {
            return Err("bytes are left without a record".into());
        }
    }
    Ok(reached)
}

/// Cuts random streams of so many bytes or a few more in two ways, from the start or from another state that is taken. How many
/// messages and pieces there were.
///
/// # Errors
/// The first two ways that do not come to the same.
pub fn run(reading: Reading, seed: u64, bytes: usize) -> Result<[u64; 2], String> {
    let mut generator = Generator::new(seed);
    let (mut read, mut counted) = (0, [0; 2]);
    while read < bytes {
        let Stream { vectors, bytes } = generator.stream();
        let from = start(&mut generator, vectors);
        let [one, other] = [generator.cut(&bytes), generator.cut(&bytes)];
        let outcomes = [&one, &other].map(|pieces| outcome(reading, &from, vectors, pieces));
        let [first, second] = &outcomes;
        if first != second || first.is_err() {
            return Err(format!("{} pieces come to {first:?}\n{} pieces to {second:?}", one.len(), other.len()));
        }
        counted[0] += first.as_ref().map_or(0, |outcome| outcome.messages.len() as u64);
        counted[1] += (one.len() + other.len()) as u64;
        read += bytes.len();
    }
    Ok(counted)
}

/// The start, or now and then another state that is taken.
fn start(generator: &mut Generator, vectors: u64) -> State {
    let random = generator.random.chance(1, 4).then(|| generator.damaged(&State::start(), vectors).0);
    random.filter(|state| state.refusals(vectors).is_empty()).unwrap_or_else(State::start)
}

/// What the wrapper's reader makes of the pieces: how many messages, and the state at the end.
pub fn wrapped(vectors: u64, pieces: &[&[u8]]) -> (usize, State) {
    let mut reader = Reader::new(vectors).expect("a number of vectors");
    let messages = pieces.iter().map(|piece| reader.messages(piece).count()).sum();
    let progress: Progress = *reader.progress();
    (messages, State { progress, counts: reader.counts().to_vec() })
}
