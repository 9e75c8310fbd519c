//! Logs of a hub's calls: what a log is, how a host writes one, and how it is played back and read.
//!
//! A log is a row of [`Record`]s, each a byte of kind and a body whose length the kind fixes. A proved program plays it and
//! writes an [`Answer`] for each. A host gets a log by making its calls through a [`Recorder`]; [`Player`] plays one on the
//! linked library, as the program does; the binary `explain` prints one in words. [`case`] is the text form of a log with the
//! answers that a player must give.

#![deny(unsafe_code)]
#![deny(missing_docs)]

mod answer;
pub mod case;
mod cutter;
mod log;
mod player;
mod record;
mod recorder;
mod text;

pub use answer::{Answer, Ending, NoAnswer, Written};
pub use cutter::{Cutter, Fault, Placed, records};
pub use log::{Log, MOST_NOTES, Note, Why};
pub use player::{LONGEST_REGION, Played, Player};
pub use record::{LONGEST_RECORD, Record, SetUp};
pub use recorder::{Recorder, SetUpError};
