//! Case files: a log as text, with what a player must write for it.
//!
//! ```text
//! # A comment goes on to the end of the line.
//! 01 0000 > 80 0A     # bytes of input, and what is written for them before more is given
//! 06 00
//! end > 84            # what is written when the input ends
//! ```
//!
//! Bytes are hexadecimal, and blanks between them mean nothing. A line without `>` is input for which nothing is written yet. A
//! line behind an `end` begins another run of the player; at the end of the file an `end` for which nothing is written may be
//! left out.

use std::fmt;

/// A line of a case file: input, and what is written for it.
#[derive(Clone, Debug, Default, PartialEq, Eq)]
pub struct Step {
    /// The line's number in the file, from 1.
    pub line: usize,
    /// What the player is given.
    pub input: Vec<u8>,
    /// What it must write for that, before it is given more.
    pub written: Vec<u8>,
}

/// One run of the player, from its start to the end of its input.
#[derive(Clone, Debug, Default, PartialEq, Eq)]
pub struct Run {
    /// The lines with input.
    pub steps: Vec<Step>,
    /// What is written when the input ends.
    pub at_end: Vec<u8>,
}

impl Run {
    /// All input.
    #[must_use]
    pub fn input(&self) -> Vec<u8> {
        self.steps.iter().flat_map(|step| &step.input).copied().collect()
    }

    /// All that is written.
    #[must_use]
    pub fn written(&self) -> Vec<u8> {
        self.steps.iter().flat_map(|step| &step.written).chain(&self.at_end).copied().collect()
    }
}

/// A line that is not as it should be.
#[derive(Clone, Debug, PartialEq, Eq)]
pub struct BadLine {
    /// Its number, from 1.
    pub line: usize,
    /// What is wrong.
    pub why: &'static str,
}

impl fmt::Display for BadLine {
    fn fmt(&self, f: &mut fmt::Formatter<'_>) -> fmt::Result {
        write!(f, "line {}: {}", self.line, self.why)
    }
}

impl std::error::Error for BadLine {}

/// The runs of a case file, of which there is at least one.
///
/// # Errors
/// The first line that is not as it should be.
pub fn parse(text: &str) -> Result<Vec<Run>, BadLine> {
    let mut runs = Vec::new();
    let mut run = Run::default();
    for (line, full) in (1..).zip(text.lines()) {
        let bad = |why| BadLine { line, why };
        let text = full.split('#').next().unwrap_or_default().trim();
        if text.is_empty() {
            continue;
        }
        let (input, written) = text.split_once('>').unwrap_or((text, ""));
        let written = bytes(written).map_err(bad)?;
        if input.trim() == "end" {
            run.at_end = written;
            runs.push(std::mem::take(&mut run));
        } else {
            run.steps.push(Step { line, input: bytes(input).map_err(bad)?, written });
        }
    }
    if !run.steps.is_empty() || runs.is_empty() {
        runs.push(run);
    }
    Ok(runs)
}

fn bytes(text: &str) -> Result<Vec<u8>, &'static str> {
    let digit = |digit: char| digit.to_digit(16).ok_or("neither a hexadecimal digit nor a blank");
    let digits: Vec<u32> = text.chars().filter(|c| !c.is_whitespace()).map(digit).collect::<Result<_, _>>()?;
    let (pairs, rest) = digits.as_chunks();
    if !rest.is_empty() {
        return Err("half a byte: the number of digits is odd");
    }
    Ok(pairs.iter().map(|[high, low]| (high << 4 | low) as u8).collect())
}
