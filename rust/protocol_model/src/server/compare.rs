//! Makes joins and leaves on a side and on the model, and compares everything after every call.

use std::fmt;

use ivshmem_protocol::raw::{self, Served};

use crate::Serving;
use crate::generate::Generator;
use crate::lent::Lent;
use crate::server::count::Counts;
use crate::server::generate::{History, Noise};
use crate::server::{self, Act, MODEL, SENT};

/// One call.
#[derive(Clone, Debug)]
pub struct Call {
    pub server: raw::Server,
    pub act: Act,
    /// What the buffer that is lent holds before.
    pub buffer: Vec<u8>,
}

/// Something that the two sides differ about.
#[derive(Clone, Debug)]
pub enum Failure {
    Started { vectors: u64, text: String },
    Served { call: Call, text: String },
}

impl Failure {
    /// Whether a side fails at this alone.
    pub fn is_shown_by(&self, side: &Serving) -> bool {
        match self {
            Failure::Started { vectors, .. } => started(side, *vectors).is_err(),
            Failure::Served { call, .. } => served(side, call).is_err(),
        }
    }
}

impl fmt::Display for Failure {
    fn fmt(&self, f: &mut fmt::Formatter<'_>) -> fmt::Result {
        match self {
            Failure::Started { vectors, text } => write!(f, "a start with {vectors} vectors\n    {text}"),
            Failure::Served { call, text } => {
                let Call { server, act, buffer } = call;
                let joined = server::Server::of(*server).joined;
                writeln!(f, "{act:?} with {} vectors and {} bytes", server.vectors, buffer.len())?;
                write!(f, "    joined are {joined:?}\n    {text}")
            }
        }
    }
}

/// Starts a server on the side and on the model; the number that the model answers.
///
/// # Errors
/// The difference, in words.
pub fn started(side: &Serving, vectors: u64) -> Result<u32, String> {
    let (ours, models) = ((side.start)(vectors), (MODEL.start)(vectors));
    if ours == models { Ok(models.number) } else { Err(format!("{ours:?}\n    the model: {models:?}")) }
}

/// Makes the call on the side and on the model; what the model answers, and the buffer afterwards.
///
/// # Errors
/// The first difference, in words.
pub fn served(side: &Serving, call: &Call) -> Result<(Served, Vec<u8>), String> {
    let Call { server, act, buffer } = call;
    let mut lent = Lent::new(buffer);
    let ours = side.serve(*server, *act, lent.bytes_mut());

    let mut left = buffer.clone();
    let models = MODEL.serve(*server, *act, &mut left);
    if ours != models {
        return Err(format!("the answer is {ours:?}\n    the model's is {models:?}"));
    }
    if let Some(at) = lent.difference(&left) {
        let message = at / SENT * SENT..(at / SENT * SENT + SENT).min(left.len());
        let [ours, models] = [&lent.bytes()[message.clone()], &left[message]];
        return Err(format!("from byte {} on there is {ours:?}, and {models:?} in the model", at / SENT * SENT));
    }
    if !lent.is_apart() {
        return Err("bytes around the buffer are changed".into());
    }
    Ok((models, left))
}

/// A run of comparisons on one side.
struct Run<'a> {
    side: &'a Serving,
    generator: Generator,
    noise: Noise,
    counts: Counts,
}

impl Run<'_> {
    fn start(&mut self, vectors: u64) -> Result<(), Box<Failure>> {
        let number = started(self.side, vectors).map_err(|text| Box::new(Failure::Started { vectors, text }))?;
        self.counts.add_start(vectors, number);
        Ok(())
    }

    /// Makes a call; the state and the buffer afterwards.
    fn call(&mut self, call: Call) -> Result<Call, Box<Failure>> {
        match served(self.side, &call) {
            Ok((answer, buffer)) => {
                self.counts.add(&call, &answer);
                Ok(Call { server: answer.server, buffer, ..call })
            }
            Err(text) => Err(Box::new(Failure::Served { call, text })),
        }
    }

    /// A server's history, and now and then a call that is made up.
    fn history(&mut self) -> Result<(), Box<Failure>> {
        let vectors = self.generator.vectors();
        self.start(vectors)?;
        let room = self.generator.room();
        let buffer = self.noise.buffer(&mut self.generator, room);
        let mut now = Call { server: raw::Server { joined: 0, vectors }, act: Act::Join, buffer };
        let mut history = History::new(&mut self.generator);
        while let Some(act) = history.next(&mut self.generator, now.server) {
            now = self.call(Call { act, ..now })?;
            if self.generator.random.chance(1, 6) {
                self.hostile(now.server)?;
            }
        }
        Ok(())
    }

    fn hostile(&mut self, server: raw::Server) -> Result<(), Box<Failure>> {
        let (server, act, room) = self.generator.hostile(server);
        let buffer = self.noise.buffer(&mut self.generator, room);
        self.counts.hostile += 1;
        self.call(Call { server, act, buffer })?;
        let vectors = self.generator.any_vectors();
        self.start(vectors)
    }
}

/// Makes so many joins and leaves or a few more, with those that are made up, and counts all.
///
/// # Errors
/// The first call that shows a difference, and how many were made before it.
pub fn run(side: &Serving, seed: u64, calls: u64) -> Result<Counts, (Box<Failure>, u64)> {
    let mut generator = Generator::new(seed);
    let noise = Noise::new(&mut generator);
    let mut run = Run { side, generator, noise, counts: Counts::default() };
    while run.counts.calls < calls {
        if let Err(failure) = run.history() {
            return Err((failure, run.counts.calls));
        }
    }
    Ok(run.counts)
}
