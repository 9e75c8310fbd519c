//! Times the player program on a long log, beside players in Rust: `playback [PROGRAM]`, where the program is
//! crates/player/out/player unless another is named. Each is a process of its own that reads the log from a file.

use std::fs::{self, File};
use std::io::{self, Read};
use std::path::{Path, PathBuf};
use std::process::{Command, ExitCode, Stdio};
use std::time::Instant;

use benchmark::measure::{PASSES, median};
use benchmark::players::{PLAYERS, play};
use benchmark::report::{Style, Table};
use ivshmem_log::{Answer, Record, Written, records};
use model::random_log::Logs;

/// The log is about so many records of random histories, so many times.
const RECORDS: usize = 200_000;
const TIMES: usize = 20;
/// No hub in it has more peers.
const MOST_PEERS: usize = 8;

fn main() -> ExitCode {
    let arguments: Vec<String> = std::env::args().skip(1).collect();
    let done = match &arguments.iter().map(String::as_str).collect::<Vec<_>>()[..] {
        // How the program starts itself.
        ["--play", player] if PLAYERS.contains(player) => play(player),
        [] => measure(&Path::new(env!("CARGO_MANIFEST_DIR")).join("../../crates/player/out/player")),
        [program] if !program.starts_with('-') => measure(Path::new(program)),
        _ => {
            eprintln!("usage: playback [PROGRAM]");
            return ExitCode::from(2);
        }
    };
    match done {
        Ok(()) => ExitCode::SUCCESS,
        Err(error) => {
            eprintln!("playback: {error}");
            ExitCode::FAILURE
        }
    }
}

/// A program to be timed.
struct Timed {
    name: &'static str,
    program: PathBuf,
    arguments: Vec<&'static str>,
    seconds: Vec<f64>,
}

/// A file that is gone with the program.
struct Stored(PathBuf);

impl Drop for Stored {
    fn drop(&mut self) {
        let _ = fs::remove_file(&self.0);
    }
}

fn measure(program: &Path) -> io::Result<()> {
    if !program.is_file() {
        let hint = "`rt run` in crates/player builds it";
        return Err(io::Error::other(format!("no program {}: {hint}", program.display())));
    }
    let records = Logs::new(2, MOST_PEERS).next(RECORDS).records;
    let once = records.concat();
    let stored = Stored(std::env::temp_dir().join(format!("playback-{}.log", std::process::id())));
    fs::write(&stored.0, once.repeat(TIMES))?;
    let mut written = Vec::new();
    model::log::player().feed(&once, &mut written);
    let written = written.repeat(TIMES);
    describe(&once, &written[..written.len() / TIMES], records.len());

    let own = std::env::current_exe()?;
    let in_rust = |name: &'static str, player| (name, own.clone(), vec!["--play", player]);
    let all = [
        ("the program", program.to_path_buf(), vec![]),
        in_rust("library, linked from Rust", PLAYERS[0]),
        in_rust("plain struct in Rust", PLAYERS[1]),
        in_rust("model in Rust", PLAYERS[2]),
    ];
    let mut all = all.map(|(name, program, arguments)| Timed { name, program, arguments, seconds: Vec::new() });
    for _ in 0..PASSES {
        for timed in &mut all {
            let seconds = time(timed, &stored.0, &written)?;
            timed.seconds.push(seconds);
        }
    }
    print(&all, records.len() * TIMES);
    Ok(())
}

/// Seconds from the start of a process to its end. It must write just what the model writes.
fn time(timed: &Timed, log: &Path, written: &[u8]) -> io::Result<f64> {
    let wrong = |what: &str| io::Error::other(format!("{}: {what}", timed.name));
    let mut command = Command::new(&timed.program);
    command.args(&timed.arguments).stdin(File::open(log)?).stdout(Stdio::piped());
    let start = Instant::now();
    let mut child = command.spawn()?;
    let mut output = child.stdout.take().ok_or_else(|| wrong("no pipe"))?;
    let (mut piece, mut rest, mut same) = (vec![0; 1 << 16], written, true);
    // It is read to its end even where it is wrong, so that no child waits for room.
    while let bytes @ 1.. = output.read(&mut piece)? {
        match rest.split_at_checked(bytes).filter(|(front, _)| *front == &piece[..bytes]) {
            Some((_, behind)) => rest = behind,
            None => same = false,
        }
    }
    let status = child.wait()?;
    let seconds = start.elapsed().as_secs_f64();
    match (status.success(), same && rest.is_empty()) {
        (false, _) => Err(wrong(&status.to_string())),
        (_, false) => Err(wrong("it does not write what the model writes")),
        _ => Ok(seconds),
    }
}

/// What is in the log.
fn describe(log: &[u8], written: &[u8], length: usize) {
    let answers = Written::decode(written).map(|written| written.answers).unwrap_or_default();
    let (mut kinds, mut refused, mut delivered) = ([0; Record::KINDS.len()], 0, 0);
    for (placed, answer) in records(log).flatten().zip(&answers) {
        kinds[usize::from(placed.record.kind())] += 1;
        match answer {
            Answer::Refused(_) => refused += 1,
            Answer::Done(deliveries) => delivered += deliveries.len(),
            Answer::Value(_) => {}
        }
    }
    let share = |count: usize| 100.0 * count as f64 / length as f64;
    println!("A log of {} records on hubs of 2 to {MOST_PEERS} peers:", length * TIMES);
    let kinds = Record::KINDS.iter().zip(kinds).map(|(name, count)| format!("{name} {:.1} %", share(count)));
    println!("{};", kinds.collect::<Vec<_>>().join(", "));
    println!("{:.1} % refused, {:.2} interrupts for each record.\n", share(refused), share(delivered) / 100.0);
}

fn print(all: &[Timed], records: usize) {
    println!("Records a second, medians of {PASSES} passes, and the program's time by the player's:\n");
    let mut table = Table::new(&["player", "million records a second", "program's time / its time"]);
    let middle = |timed: &Timed| median(timed.seconds.clone());
    for timed in all {
        let speed = records as f64 / middle(timed) / 1e6;
        let ratio = middle(&all[0]) / middle(timed);
        table.add(vec![timed.name.into(), format!("{speed:.2}"), format!("{ratio:.2}")]);
    }
    table.print(Style::Terminal);
}
