//! Makes the raw input of a player from a case file, and the raw bytes that it must write.

use std::process::ExitCode;

use ivshmem_log::case;

const USAGE: &str = "usage: assemble FILE STDIN STDOUT
Reads the case file FILE, which has one run; writes its input to STDIN and what the player must write to STDOUT.";

fn main() -> ExitCode {
    let arguments: Vec<String> = std::env::args().skip(1).collect();
    let [file, stdin, stdout] = &arguments[..] else {
        eprintln!("{USAGE}");
        return ExitCode::from(2);
    };
    match assemble(file, stdin, stdout) {
        Ok(()) => ExitCode::SUCCESS,
        Err(problem) => {
            eprintln!("assemble: {problem}");
            ExitCode::FAILURE
        }
    }
}

fn assemble(file: &str, stdin: &str, stdout: &str) -> Result<(), String> {
    let text = std::fs::read_to_string(file).map_err(|error| format!("{file}: {error}"))?;
    let runs = case::parse(&text).map_err(|bad| format!("{file}: {bad}"))?;
    let [run] = &runs[..] else {
        return Err(format!("{file}: {} runs, and only one has one input", runs.len()));
    };
    let write = |path: &str, bytes: Vec<u8>| std::fs::write(path, bytes).map_err(|error| format!("{path}: {error}"));
    write(stdin, run.input())?;
    write(stdout, run.written())
}
