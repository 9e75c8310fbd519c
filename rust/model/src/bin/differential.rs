//! Compares the linked library with the model for as long as wanted:
//! `cargo run --release -p model --bin differential -- --seed 7 --calls 100000000`

use std::process::ExitCode;
use std::time::Instant;

use model::compare;
use model::subject::Library;

const USAGE: &str = "usage: differential [--seed NUMBER] [--calls NUMBER]";

fn main() -> ExitCode {
    let Some((seed, calls)) = arguments() else {
        eprintln!("{USAGE}");
        return ExitCode::from(2);
    };
    let start = Instant::now();
    match compare::run(|| Library, seed, calls) {
        Ok(counts) => {
            println!("seed {seed}: no difference\n{counts}");
            println!("{:.1} s", start.elapsed().as_secs_f64());
            ExitCode::SUCCESS
        }
        Err(failure) => {
            println!("seed {seed}: {failure}");
            ExitCode::FAILURE
        }
    }
}

fn arguments() -> Option<(u64, u64)> {
    let (mut seed, mut calls) = (1, 10_000_000);
    let mut words = std::env::args().skip(1);
    while let Some(word) = words.next() {
        let number = words.next()?.parse().ok()?;
        match word.as_str() {
            "--seed" => seed = number,
            "--calls" => calls = number,
            _ => return None,
        }
    }
    Some((seed, calls))
}
