//! Prints a log in words: record by record its place, the call, the answer and the interrupts that were delivered.

use std::fs::File;
use std::io::{self, BufWriter, ErrorKind, Read, Write};
use std::process::ExitCode;

use ivshmem_log::Player;

const USAGE: &str = "usage: explain [LOG]
Plays the log, or standard input, and prints it in words.";

fn main() -> ExitCode {
    let arguments: Vec<String> = std::env::args().skip(1).collect();
    let explained = match &arguments[..] {
        [] => explain(&mut io::stdin().lock(), "standard input"),
        [file] if !file.starts_with('-') => match File::open(file) {
            Ok(mut log) => explain(&mut log, file),
            Err(error) => Err(format!("{file}: {error}")),
        },
        _ => {
            eprintln!("{USAGE}");
            return ExitCode::from(2);
        }
    };
    match explained {
        Ok(()) => ExitCode::SUCCESS,
        Err(problem) => {
            eprintln!("explain: {problem}");
            ExitCode::FAILURE
        }
    }
}

/// Prints all that can be read, also where what follows can't.
fn explain(log: &mut impl Read, name: &str) -> Result<(), String> {
    let mut out = BufWriter::new(io::stdout().lock());
    let played = play(log, name, &mut out);
    let flushed = out.flush();
    match played.and(flushed.map_err(Stop::Output)) {
        // Whoever reads has seen enough.
        Err(Stop::Output(error)) if error.kind() == ErrorKind::BrokenPipe => Ok(()),
        Err(Stop::Output(error)) => Err(format!("standard output: {error}")),
        Err(Stop::Input(problem)) => Err(problem),
        Ok(()) => Ok(()),
    }
}

enum Stop {
    Input(String),
    Output(io::Error),
}

fn play(log: &mut impl Read, name: &str, out: &mut impl Write) -> Result<(), Stop> {
    let in_log = |problem: &dyn std::fmt::Display| Stop::Input(format!("{name}: {problem}"));
    let mut player = Player::default();
    let mut piece = vec![0; 1 << 16];
    loop {
        let bytes = match log.read(&mut piece) {
            Ok(bytes) => bytes,
            Err(error) if error.kind() == ErrorKind::Interrupted => continue,
            Err(error) => return Err(in_log(&error)),
        };
        if bytes == 0 {
            return player.finish().map_err(|fault| in_log(&fault));
        }
        let mut printed = Ok(());
        let fed = player.feed(&piece[..bytes], |played| {
            if printed.is_ok() {
                printed = writeln!(out, "{played}");
            }
        });
        printed.map_err(Stop::Output)?;
        fed.map_err(|fault| in_log(&fault))?;
    }
}
