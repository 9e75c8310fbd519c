//! A log cut into records, with the places of records and faults.

use std::fmt;

use crate::record::{LONGEST_RECORD, Record};

/// Why a log can't be read further.
#[derive(Clone, Copy, Debug, PartialEq, Eq, Hash)]
pub enum Fault {
    /// 85: where a record should begin stands a byte that is no kind. What follows it is not read.
    UnknownKind {
        /// The byte's place in the log.
        place: u64,
        /// The byte.
        kind: u8,
    },
    /// 84: the log ends inside a record.
    EndsInside {
        /// Where the record begins.
        place: u64,
        /// Its kind.
        kind: u8,
        /// How many of its bytes are there.
        bytes: usize,
    },
}

impl Fault {
    /// The byte that a player writes for it.
    #[must_use]
    pub const fn code(&self) -> u8 {
        match self {
            Fault::EndsInside { .. } => 0x84,
            Fault::UnknownKind { .. } => 0x85,
        }
    }
}

impl fmt::Display for Fault {
    fn fmt(&self, f: &mut fmt::Formatter<'_>) -> fmt::Result {
        match *self {
            Fault::UnknownKind { place, kind } => write!(f, "byte {place}: {kind:02X}h is no kind of record"),
            Fault::EndsInside { place, kind, bytes } => {
                let end = place + bytes as u64;
                let name = Record::KINDS.get(usize::from(kind)).unwrap_or(&"record");
                let length = Record::length(kind).unwrap_or_default();
                write!(f, "byte {end}: the log ends inside the {name} that begins at byte {place}, ")?;
                write!(f, "after {bytes} of its {length} bytes")
            }
        }
    }
}

impl std::error::Error for Fault {}

/// A record and where in the log it begins.
#[derive(Clone, Copy, Debug, PartialEq, Eq, Hash)]
pub struct Placed {
    /// The place of its first byte.
    pub place: u64,
    /// The record.
    pub record: Record,
}

/// Cuts a log into records, whatever pieces it comes in. It holds one record at the most.
#[derive(Clone, Debug)]
pub struct Cutter {
    held: [u8; LONGEST_RECORD],
    in_held: usize,
    /// Where the record begins whose bytes are held.
    place: u64,
    stopped: bool,
}

impl Default for Cutter {
    fn default() -> Cutter {
        Cutter { held: [0; LONGEST_RECORD], in_held: 0, place: 0, stopped: false }
    }
}

impl Cutter {
    /// Takes bytes from the front of the piece up to the end of a record, and gives that; nothing where the piece is used up
    /// first. An unknown kind is given once, and whatever follows it is taken and gives nothing.
    pub fn next(&mut self, piece: &mut &[u8]) -> Option<Result<Placed, Fault>> {
        if self.stopped {
            *piece = &[];
        }
        let place = self.place;
        let kind = *self.held[..self.in_held].first().or(piece.first())?;
        let Some(length) = Record::length(kind) else {
            self.stopped = true;
            return Some(Err(Fault::UnknownKind { place, kind }));
        };
        let Some((bytes, rest)) = piece.split_at_checked(length - self.in_held) else {
            self.hold(piece);
            *piece = &[];
            return None;
        };
        *piece = rest;
        let record = if self.in_held == 0 {
            Record::decode(bytes)
        } else {
            self.hold(bytes);
            Record::decode(&self.held[..length])
        };
        self.place += length as u64;
        self.in_held = 0;
        record.map(|record| Ok(Placed { place, record }))
    }

    fn hold(&mut self, bytes: &[u8]) {
        self.held[self.in_held..][..bytes.len()].copy_from_slice(bytes);
        self.in_held += bytes.len();
    }

    /// The log ends here.
    ///
    /// # Errors
    /// [`Fault::EndsInside`], where bytes of a record are held.
    pub fn end(&self) -> Result<(), Fault> {
        match self.in_held {
            0 => Ok(()),
            bytes => Err(Fault::EndsInside { place: self.place, kind: self.held[0], bytes }),
        }
    }
}

/// The records of a whole log, each with its place; the last item may be the fault that ends it.
pub fn records(log: &[u8]) -> impl Iterator<Item = Result<Placed, Fault>> + '_ {
    let mut cutter = Cutter::default();
    let mut rest = log;
    let mut ended = false;
    std::iter::from_fn(move || {
        if ended {
            return None;
        }
        let item = cutter.next(&mut rest).or_else(|| cutter.end().err().map(Err));
        ended = !matches!(item, Some(Ok(_)));
        item
    })
}
