//! Answers, as a player writes them.

use std::fmt;

use ivshmem::{Delivery, PeerId, Refusal, Vector};

use crate::record::Fields;

/// What a player writes for one record.
#[derive(Clone, Debug, PartialEq, Eq, Hash)]
pub enum Answer {
    /// 80 and the refusal's number.
    Refused(Refusal),
    /// 81, and an 83 for each interrupt that was delivered, in ring order.
    Done(Vec<Delivery>),
    /// 82 and the value read, in four bytes; where fewer were read, the high ones are 0.
    Value(u32),
}

impl Answer {
    /// Puts the answer's bytes at the end of those written so far.
    pub fn encode(&self, written: &mut Vec<u8>) {
        match self {
            // A number that a byte has no room for is FFh, which is no refusal's.
            Answer::Refused(refusal) => written.extend([0x80, refusal.number().try_into().unwrap_or(u8::MAX)]),
            Answer::Done(deliveries) => {
                written.push(0x81);
                deliveries.iter().for_each(|delivery| encode_delivery(delivery, written));
            }
            Answer::Value(value) => {
                written.push(0x82);
                written.extend(value.to_le_bytes());
            }
        }
    }

    /// The answer at the front of the bytes, with all deliveries that follow it, and the bytes behind it; nothing where there
    /// is none, or only a part of one.
    #[must_use]
    pub fn decode(written: &[u8]) -> Option<(Answer, &[u8])> {
        let mut fields = Fields(written);
        let answer = match fields.one()? {
            0x80 => Answer::Refused(decode_refusal(fields.one()?)?),
            0x81 => {
                let mut deliveries = Vec::new();
                while fields.0.first() == Some(&0x83) {
                    deliveries.push(decode_delivery(&mut fields)?);
                }
                Answer::Done(deliveries)
            }
            0x82 => Answer::Value(fields.four()?),
            _ => return None,
        };
        Some((answer, fields.0))
    }
}

impl From<Result<u32, Refusal>> for Answer {
    fn from(read: Result<u32, Refusal>) -> Answer {
        read.map_or_else(Answer::Refused, Answer::Value)
    }
}

impl From<Result<(), Refusal>> for Answer {
    fn from(done: Result<(), Refusal>) -> Answer {
        done.map_or_else(Answer::Refused, |()| Answer::Done(Vec::new()))
    }
}

impl From<Result<&[Delivery], Refusal>> for Answer {
    fn from(delivered: Result<&[Delivery], Refusal>) -> Answer {
        delivered.map_or_else(Answer::Refused, |deliveries| Answer::Done(deliveries.to_vec()))
    }
}

fn encode_delivery(delivery: &Delivery, written: &mut Vec<u8>) {
    written.push(0x83);
    written.extend(delivery.target.0.to_le_bytes());
    written.extend(delivery.vector.0.to_le_bytes());
    written.extend(delivery.address.to_le_bytes());
    written.extend(delivery.data.to_le_bytes());
}

// A player has the refusals of this crate and no others.
fn decode_refusal(number: u8) -> Option<Refusal> {
    Refusal::ALL.into_iter().find(|refusal| refusal.number() == number.into())
}

fn decode_delivery(fields: &mut Fields<'_>) -> Option<Delivery> {
    fields.one()?;
    let (target, vector) = (PeerId(fields.two()?), Vector(fields.two()?));
    Some(Delivery { target, vector, address: fields.eight()?, data: fields.four()? })
}

/// How what a player wrote ends.
#[derive(Clone, Copy, Debug, PartialEq, Eq, Hash)]
pub enum Ending {
    /// With the answer to the last record.
    Whole,
    /// With 84: the log ended inside a record.
    InsideRecord,
    /// With 85: a record was of no kind.
    UnknownKind,
}

/// All that a player wrote.
#[derive(Clone, Debug, PartialEq, Eq, Hash)]
pub struct Written {
    /// The answers, one for each record.
    pub answers: Vec<Answer>,
    /// What stands behind them.
    pub ending: Ending,
}

/// Bytes that no player writes.
#[derive(Clone, Copy, Debug, PartialEq, Eq, Hash)]
pub struct NoAnswer {
    /// The place from which on they are no answer.
    pub place: usize,
}

impl fmt::Display for NoAnswer {
    fn fmt(&self, f: &mut fmt::Formatter<'_>) -> fmt::Result {
        write!(f, "byte {}: no answer begins here, or it is cut off", self.place)
    }
}

impl std::error::Error for NoAnswer {}

impl Written {
    /// Reads all that a player wrote.
    ///
    /// # Errors
    /// The place where it is no answer.
    pub fn decode(written: &[u8]) -> Result<Written, NoAnswer> {
        let mut answers = Vec::new();
        let mut rest = written;
        let ending = loop {
            match rest {
                [] => break Ending::Whole,
                [0x84] => break Ending::InsideRecord,
                [0x85] => break Ending::UnknownKind,
                _ => {}
            }
            let place = written.len() - rest.len();
            let (answer, behind) = Answer::decode(rest).ok_or(NoAnswer { place })?;
            answers.push(answer);
            rest = behind;
        };
        Ok(Written { answers, ending })
    }
}
