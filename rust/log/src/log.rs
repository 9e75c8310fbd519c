//! The log that a recorder writes, and notes of what it does not hold.

use std::fmt;
use std::io::{self, Write};

use ivshmem::{Refusal, Settings};

use crate::answer::Answer;
use crate::record::{Record, SetUp};
use crate::text::{set_up_details, set_up_text};

/// So many notes are kept, the first ones; all are counted.
pub const MOST_NOTES: usize = 1024;

/// Why a call does not stand in the log.
#[derive(Clone, Copy, Debug, PartialEq, Eq, Hash)]
pub enum Why {
    /// A log has no record for it: a section question, a refused shared range of other than one byte, a width that the space
    /// does not have, a number that is too wide. Such a call has changed nothing.
    NoRecord,
    /// It was refused for the memory that it was lent (2, 10 or 11), and a player lends the right memory. It has changed
    /// nothing; but where it is a set-up, the words are all zero.
    OtherMemory,
    /// It was made on a hub that this log has not set up, and may have changed that.
    OtherHub,
    /// The writer failed at this call or earlier.
    WriterFailed,
}

/// A call that does not stand in the log.
#[derive(Clone, Debug, PartialEq, Eq, Hash)]
pub struct Note {
    /// How many records stand before it.
    pub records: u64,
    /// How many bytes they have.
    pub place: u64,
    /// The call, in words.
    pub call: String,
    /// Its answer, in words.
    pub answer: String,
    /// Why it is not in the log.
    pub why: Why,
}

/// A line like those of `explain`, with the place at which the record would stand.
impl fmt::Display for Note {
    fn fmt(&self, f: &mut fmt::Formatter<'_>) -> fmt::Result {
        let why = match self.why {
            Why::NoRecord => "no record says this",
            Why::OtherMemory => "a player lends the right memory",
            Why::OtherHub => "the hub is not from this log",
            Why::WriterFailed => "the writer failed",
        };
        write!(f, "{:>8}  {}: {} [not in the log: {why}]", self.place, self.call, self.answer)
    }
}

/// A log that is being written.
///
/// A call is made first, and its record goes to the writer before the host gets the answer: whatever a host does with an answer
/// comes after the record. A writer that buffers has to be [flushed](Log::flush).
///
/// If the writer fails, the hub goes on answering, since no guest should suffer for it. The log is then over: nothing more
/// goes to the writer, because nothing could be read behind a part of a record, and every call from that one on is noted.
/// [`failure`](Log::failure) and [`flush`](Log::flush) say why, and [`is_complete`](Log::is_complete) is false.
#[derive(Debug)]
pub struct Log<W> {
    writer: W,
    /// The records of one call, on their way to the writer.
    bytes: Vec<u8>,
    records: u64,
    place: u64,
    /// Whether a player of the log has a hub by now.
    set_up: bool,
    notes: Vec<Note>,
    noted: u64,
    failure: Option<io::Error>,
}

impl<W: Write> Log<W> {
    /// An empty log.
    pub const fn new(writer: W) -> Log<W> {
        Log {
            writer,
            bytes: Vec::new(),
            records: 0,
            place: 0,
            set_up: false,
            notes: Vec::new(),
            noted: 0,
            failure: None,
        }
    }

    /// Whether every call stands in the log. Where some do not, those that do still play back as they were answered.
    #[must_use]
    pub const fn is_complete(&self) -> bool {
        self.noted == 0
    }

    /// The calls that are not in the log, in order: the first [`MOST_NOTES`] of them.
    #[must_use]
    pub fn notes(&self) -> &[Note] {
        &self.notes
    }

    /// How many calls are not in the log.
    #[must_use]
    pub const fn noted(&self) -> u64 {
        self.noted
    }

    /// How many records are in the log.
    #[must_use]
    pub const fn records(&self) -> u64 {
        self.records
    }

    /// Why the writer failed, if it did.
    #[must_use]
    pub const fn failure(&self) -> Option<&io::Error> {
        self.failure.as_ref()
    }

    /// Flushes the writer.
    ///
    /// # Errors
    /// Why the writer fails, or failed earlier.
    pub fn flush(&mut self) -> io::Result<()> {
        match &self.failure {
            Some(failure) => Err(io::Error::new(failure.kind(), failure.to_string())),
            None => self.writer.flush(),
        }
    }

    /// Ends the log and gives the writer back, not flushed.
    pub fn into_writer(self) -> W {
        self.writer
    }

    /// Takes in a call with its answer: the records that say it, where some do, or a note.
    pub(crate) fn call<T>(
        &mut self,
        records: Option<impl IntoIterator<Item = Record>>,
        text: impl FnOnce() -> String,
        answer: Result<T, Refusal>,
    ) where
        Answer: From<Result<T, Refusal>>,
    {
        let kept = self.plays(answer.as_ref().err()).and_then(|()| match records {
            Some(records) => self.write(records),
            None => Err(Why::NoRecord),
        });
        if let Err(why) = kept {
            self.note(why, text, || Answer::from(answer).to_string());
        }
    }

    /// Takes in a set-up; a player has the hub that it leaves.
    pub(crate) fn set_up(&mut self, settings: &Settings, answer: Result<(), Refusal>) {
        let kept = match (SetUp::from_settings(settings), answer) {
            (None, _) => Err(Why::NoRecord),
            (_, Err(Refusal::UnsoundHub | Refusal::BadRegion)) => Err(Why::OtherMemory),
            (Some(numbers), _) => self.write([Record::SetUp(numbers)]),
        };
        match kept {
            Ok(()) => self.set_up = answer.is_ok(),
            Err(why) => {
                let [sections, numbers] = set_up_details(settings);
                let text = || format!("{}, {sections}, {numbers}", set_up_text(settings));
                self.note(why, text, || Answer::from(answer).to_string());
            }
        }
    }

    /// Whether a player can give this answer: it has the hub that the log has set up, and lends it the right memory.
    fn plays(&self, refusal: Option<&Refusal>) -> Result<(), Why> {
        match refusal {
            Some(Refusal::BadRegion | Refusal::ShortTable) => Err(Why::OtherMemory),
            Some(Refusal::UnsoundHub) if self.set_up => Err(Why::OtherMemory),
            Some(Refusal::UnsoundHub) => Ok(()),
            _ if self.set_up => Ok(()),
            _ => Err(Why::OtherHub),
        }
    }

    fn write(&mut self, records: impl IntoIterator<Item = Record>) -> Result<(), Why> {
        if self.failure.is_some() {
            return Err(Why::WriterFailed);
        }
        self.bytes.clear();
        let mut count = 0;
        for record in records {
            record.encode(&mut self.bytes);
            count += 1;
        }
        if let Err(failure) = self.writer.write_all(&self.bytes) {
            self.failure = Some(failure);
            return Err(Why::WriterFailed);
        }
        self.records += count;
        self.place += self.bytes.len() as u64;
        Ok(())
    }

    pub(crate) fn note(&mut self, why: Why, call: impl FnOnce() -> String, answer: impl FnOnce() -> String) {
        self.noted += 1;
        if self.notes.len() < MOST_NOTES {
            let (records, place) = (self.records, self.place);
            self.notes.push(Note { records, place, call: call(), answer: answer(), why });
        }
    }
}
