//! The built player program as a child, and the comparison of any player with the model.
// Every test file uses a part of this.
#![allow(dead_code)]

use std::fmt::Write as _;
use std::io::{ErrorKind, Read, Write};
use std::path::{Path, PathBuf};
use std::process::{Child, ChildStdin, Command, Stdio};
use std::sync::mpsc::{self, Receiver, RecvTimeoutError};
use std::thread;
use std::time::{Duration, Instant};

use ivshmem_log::{Player, Written};
use model::random::Random;
use model::random_log::Made;

/// A program that writes nothing for so long, where it should, hangs.
const LIMIT: Duration = Duration::from_secs(20);

/// The repository's root.
pub fn root() -> PathBuf {
    Path::new(env!("CARGO_MANIFEST_DIR")).join("../..")
}

/// The built program.
fn program() -> PathBuf {
    let path =
        std::env::var_os("IVSHMEM_PLAYER").map_or_else(|| root().join("crates/player/out/player"), PathBuf::from);
    assert!(
        path.is_file(),
        "no program {}: `rt run` in crates/player builds it, or name one in IVSHMEM_PLAYER",
        path.display()
    );
    path
}

/// The program, while it runs.
pub struct Running {
    child: Child,
    input: Option<ChildStdin>,
    output: Receiver<Vec<u8>>,
    written: Vec<u8>,
}

impl Running {
    pub fn start() -> Running {
        let mut child = Command::new(program())
            .stdin(Stdio::piped())
            .stdout(Stdio::piped())
            .spawn()
            .expect("the program should start");
        let input = child.stdin.take();
        let mut output = child.stdout.take().expect("a pipe");
        let (sender, receiver) = mpsc::channel();
        // Reads whatever comes, so that the program never waits for room in the pipe.
        thread::spawn(move || {
            let mut piece = vec![0; 1 << 16];
            while let Ok(bytes @ 1..) = output.read(&mut piece) {
                if sender.send(piece[..bytes].to_vec()).is_err() {
                    return;
                }
            }
        });
        Running { child, input, output: receiver, written: Vec::new() }
    }

    /// Gives it input; false where it takes no more, having stopped.
    pub fn give(&mut self, bytes: &[u8]) -> bool {
        self.input.as_mut().is_some_and(|input| give(input, bytes))
    }

    /// Waits until it has written so much in all; what it has written by then.
    pub fn wait_for(&mut self, bytes: usize) -> Result<&[u8], String> {
        let start = Instant::now();
        while self.written.len() < bytes {
            match self.output.recv_timeout(LIMIT.saturating_sub(start.elapsed())) {
                Ok(piece) => self.written.extend(piece),
                Err(RecvTimeoutError::Disconnected) => return Err(format!("it ended after {:02x?}", self.written)),
                Err(RecvTimeoutError::Timeout) => return Err(format!("it hangs after {:02x?}", self.written)),
            }
        }
        Ok(&self.written)
    }

    /// Ends its input; all that it has written, once it has ended well.
    pub fn end(mut self) -> Result<Vec<u8>, String> {
        self.input = None;
        self.collect()
    }

    /// Takes in all that it writes until it ends.
    fn collect(&mut self) -> Result<Vec<u8>, String> {
        loop {
            match self.output.recv_timeout(LIMIT) {
                Ok(piece) => self.written.extend(piece),
                Err(RecvTimeoutError::Disconnected) => break,
                Err(RecvTimeoutError::Timeout) => return Err("it hangs".into()),
            }
        }
        let start = Instant::now();
        let status = loop {
            match self.child.try_wait() {
                Ok(Some(status)) => break status,
                Ok(None) if start.elapsed() < LIMIT => thread::sleep(Duration::from_millis(1)),
                other => return Err(format!("it closed its output and does not end: {other:?}")),
            }
        };
        if status.code() == Some(0) { Ok(std::mem::take(&mut self.written)) } else { Err(format!("{status}")) }
    }
}

impl Drop for Running {
    /// A child that has ended is not killed by this.
    fn drop(&mut self) {
        let _ = self.child.kill();
        let _ = self.child.wait();
    }
}

fn give(input: &mut ChildStdin, bytes: &[u8]) -> bool {
    match input.write_all(bytes) {
        Ok(()) => true,
        Err(error) if error.kind() == ErrorKind::BrokenPipe => false,
        Err(error) => panic!("the pipe to the program: {error}"),
    }
}

/// Something that plays a log, given in these pieces: all that it writes.
pub type Plays<'a> = &'a dyn Fn(&[&[u8]]) -> Result<Vec<u8>, String>;

/// The program, through a pipe.
pub fn play_on_program(pieces: &[&[u8]]) -> Result<Vec<u8>, String> {
    let mut running = Running::start();
    let mut input = running.input.take().expect("just started");
    thread::scope(|scope| {
        // It may stop before it has all, which what it writes must explain.
        scope.spawn(move || pieces.iter().all(|piece| give(&mut input, piece)));
        let written = running.collect();
        // The writer ends with the program.
        drop(running);
        written
    })
}

/// The player of this crate.
pub fn play_on_library(pieces: &[&[u8]]) -> Result<Vec<u8>, String> {
    let mut player = Player::default();
    let mut written = Vec::new();
    pieces.iter().for_each(|piece| player.play(piece, &mut written));
    player.end(&mut written);
    Ok(written)
}

/// How a log is cut.
#[derive(Clone, Copy, Debug, PartialEq, Eq)]
pub enum Cut {
    Whole,
    /// Into random pieces, by this seed.
    Pieces(u64),
    Bytes,
}

impl Cut {
    pub fn apply(self, log: &[u8]) -> Vec<&[u8]> {
        match self {
            Cut::Whole => vec![log],
            Cut::Bytes => log.chunks(1).collect(),
            Cut::Pieces(seed) => random_pieces(log, &mut Random::new(seed)),
        }
    }
}

fn random_pieces<'a>(log: &'a [u8], random: &mut Random) -> Vec<&'a [u8]> {
    let mut pieces = Vec::new();
    let mut rest = log;
    while !rest.is_empty() {
        let most = random.pick(&[1, 2, 10, 40, 400, 70_000]);
        let length = 1 + random.below(most) as usize;
        let (piece, behind) = rest.split_at(length.min(rest.len()));
        pieces.push(piece);
        rest = behind;
    }
    pieces
}

/// Plays the log and compares what is written with what the model's player writes.
///
/// # Errors
/// The first difference, in words.
pub fn compare(plays: Plays<'_>, made: &Made, cut: Cut) -> Result<(), String> {
    let log = made.bytes();
    let models = made.written(|_, _| {});
    let ours = plays(&cut.apply(&log))?;
    if ours == models { Ok(()) } else { Err(difference(&ours, &models)) }
}

/// Where two players' answers part.
fn difference(ours: &[u8], models: &[u8]) -> String {
    let (Ok(left), Ok(right)) = (Written::decode(ours), Written::decode(models)) else {
        let at = ours.iter().zip(models).take_while(|(o, m)| o == m).count();
        return format!("byte {at} of what is written differs, and from there on it is no answer");
    };
    let at = left.answers.iter().zip(&right.answers).take_while(|(l, r)| l == r).count();
    match (left.answers.get(at), right.answers.get(at)) {
        (None, None) => format!("it ends with {:?}; the model with {:?}", left.ending, right.ending),
        (l, r) => {
            let text = |answer: Option<&ivshmem_log::Answer>| answer.map_or("none".into(), ToString::to_string);
            format!("answer {} is: {}; the model's is: {}", at + 1, text(l), text(r))
        }
    }
}

/// A log on which a player and the model differ, cut short.
pub struct Failure {
    pub made: Made,
    pub text: String,
}

/// Drops records, as long as the rest still shows a difference and it does not take too long, as where the program hangs.
pub fn shrink(plays: Plays<'_>, mut made: Made, cut: Cut) -> Failure {
    let (found_after, start) = (made.records.len(), Instant::now());
    let fails = |made: &Made| start.elapsed() < LIMIT && compare(plays, made, cut).is_err();
    let without = |made: &Made, start: usize, end: usize| {
        let mut shorter = made.clone();
        shorter.records.drain(start..end);
        shorter
    };
    let mut size = made.records.len().next_power_of_two();
    while size > 0 {
        let mut end = made.records.len();
        while end > 0 {
            let start = end.saturating_sub(size);
            let shorter = without(&made, start, end);
            if fails(&shorter) {
                made = shorter;
            }
            end = start;
        }
        size /= 2;
    }
    let no_tail = Made { tail: Vec::new(), ..made.clone() };
    if fails(&no_tail) {
        made = no_tail;
    }
    let difference = compare(plays, &made, cut).err().unwrap_or("nothing differs when played again".into());
    let mut text = format!("a log of {} records, cut from {found_after}, {cut:?}:\n", made.records.len());
    let _ = Player::default().feed(&made.bytes(), |played| {
        let _ = writeln!(text, "{played}");
    });
    let _ = write!(text, "tail {:02x?}; then {difference}", made.tail);
    Failure { made, text }
}
