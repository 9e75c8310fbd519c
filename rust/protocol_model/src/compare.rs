//! Reads streams on a side and on the model, and compares everything after every call.

use std::fmt;

use ivshmem_protocol::raw::Answer;

use crate::Reading;
use crate::count::Counts;
use crate::generate::Generator;
use crate::lent::Lent;
use crate::reader::{self, State};

/// One call.
#[derive(Clone, Debug)]
pub struct Call<'a> {
    pub state: &'a State,
    pub vectors: u64,
    pub input: &'a [u8],
}

/// A call that the two sides differ about.
#[derive(Clone, Debug)]
pub struct Failure {
    pub state: State,
    pub vectors: u64,
    pub input: Vec<u8>,
    pub text: String,
}

impl fmt::Display for Failure {
    fn fmt(&self, f: &mut fmt::Formatter<'_>) -> fmt::Result {
        let State { progress, counts } = &self.state;
        let some: Vec<_> = counts.iter().enumerate().filter(|(_, count)| **count != 0).collect();
        writeln!(f, "a call with {progress:?}, {} counts, {} vectors", counts.len(), self.vectors)?;
        writeln!(f, "    counts that are not 0, by id: {some:?}")?;
        writeln!(f, "    {} bytes of input, at first {:?}", self.input.len(), &self.input[..self.input.len().min(9)])?;
        write!(f, "    {}", self.text)
    }
}

/// Makes the call on the side and on the model; what the model answers, and the state afterwards.
///
/// # Errors
/// The first difference, in words.
pub fn call(reading: Reading, call: &Call<'_>) -> Result<(Answer, State), String> {
    let Call { state, vectors, input } = *call;
    let (mut lent, lent_input) = (Lent::new(&state.counts), input.to_vec());
    let ours = reading(state.progress, lent.bytes_mut(), vectors, &lent_input);

    let mut counts = state.counts.clone();
    let models = reader::read(state.progress, &mut counts, vectors, input);
    if ours != models {
        return Err(format!("the answer is {ours:?}\n    the model's is {models:?}"));
    }
    if let Some(at) = lent.difference(&counts) {
        return Err(format!("count {at} is {}, and {} in the model", lent.bytes()[at], counts[at]));
    }
    if !lent.is_apart() || lent_input != input {
        return Err("bytes that are not the counts are changed".into());
    }
    Ok((models, State { progress: models.progress, counts }))
}

/// A run of comparisons on one side.
struct Run {
    reading: Reading,
    generator: Generator,
    counts: Counts,
}

impl Run {
    fn call(&mut self, state: &mut State, vectors: u64, input: &[u8]) -> Result<Answer, Box<Failure>> {
        let made = Call { state, vectors, input };
        match call(self.reading, &made) {
            Ok((answer, after)) => {
                self.counts.add(&made, &answer);
                *state = after;
                Ok(answer)
            }
            Err(text) => Err(Box::new(Failure { state: state.clone(), vectors, input: input.to_vec(), text })),
        }
    }

    /// Reads a piece up to its end, or to a refusal. At times there is a call with nothing behind the last record.
    fn piece(&mut self, state: &mut State, vectors: u64, piece: &[u8]) -> Result<(), Box<Failure>> {
        let mut rest = piece;
        loop {
            let answer = self.call(state, vectors, rest)?;
            rest = &rest[answer.taken..];
            let at_end = rest.is_empty() && self.generator.random.chance(3, 4);
            if answer.number != 0 || answer.message == 0 || at_end {
                return Ok(());
            }
        }
    }

    /// Reads a stream in pieces, and now and then from a damaged state of it.
    fn stream(&mut self) -> Result<(), Box<Failure>> {
        let stream = self.generator.stream();
        let mut state = State::start();
        for piece in self.generator.cut(&stream.bytes) {
            self.piece(&mut state, stream.vectors, piece)?;
            if self.generator.random.chance(1, 10) {
                self.damaged(&state, stream.vectors)?;
            }
        }
        Ok(())
    }

    fn damaged(&mut self, state: &State, vectors: u64) -> Result<(), Box<Failure>> {
        let (mut state, vectors) = self.generator.damaged(state, vectors);
        let before = self.counts.records;
        for _ in 0..1 + self.generator.random.below(3) {
            let input = self.generator.input();
            self.piece(&mut state, vectors, &input)?;
        }
        self.counts.damaged += self.counts.records - before;
        Ok(())
    }
}

/// Reads so many whole records of streams or a few more, and damaged states of them, and counts all.
///
/// # Errors
/// The first call that shows a difference, and how many records were read before it.
pub fn run(reading: Reading, seed: u64, records: u64) -> Result<Counts, (Box<Failure>, u64)> {
    let mut run = Run { reading, generator: Generator::new(seed), counts: Counts::default() };
    while run.counts.records - run.counts.damaged < records {
        if let Err(failure) = run.stream() {
            return Err((failure, run.counts.records));
        }
    }
    Ok(run.counts)
}
