//! What a run has covered, by name.

use std::fmt;

use ivshmem_protocol::raw::Answer;

use crate::compare::Call;
use crate::reader::{
    CLOSED, Fault, ID_DUE, IDS, MAX_VECTORS, MEMORY_DUE, PEERS, RECORD, State, VERSION_DUE, ended_record,
};
use crate::seen::Seen;

const MESSAGES: [&str; 8] = ["more", "version", "id", "memory", "vector", "extra vector", "disconnected", "closed"];

/// What is counted, and how often it must be seen in a million records of random streams.
pub const LEAST: [(&str, u64); 85] = [
    ("more", 2_800_000),
    ("version", 24_000),
    ("id", 22_000),
    ("memory", 19_000),
    ("vector", 280_000),
    ("extra vector", 310_000),
    ("disconnected", 59_000),
    ("closed", 240_000),
    ("more, of no bytes", 810_000),
    ("more, of some bytes", 2_000_000),
    ("records with 0 bytes held", 380_000),
    ("records with 1 byte held", 30_000),
    ("records with 2 bytes held", 32_000),
    ("records with 3 bytes held", 36_000),
    ("records with 4 bytes held", 40_000),
    ("records with 5 bytes held", 44_000),
    ("records with 6 bytes held", 49_000),
    ("records with 7 bytes held", 93_000),
    ("records with 8 bytes held", 250_000),
    ("records with other bytes behind them", 480_000),
    ("own id 0", 4_300),
    ("own id 63", 3_800),
    ("vectors of the own id", 43_000),
    ("vectors of peer 63", 37_000),
    ("sixteenth vectors", 630),
    ("extra vectors of the own id", 150_000),
    ("extra vectors above sixteen", 15_000),
    ("disconnects of one vector", 25_000),
    ("disconnects of more than one vector", 33_000),
    ("version due: 0 of another kind", 330),
    ("version due: 0 with a descriptor", 360),
    ("version due: another number", 2_200),
    ("version due: another number with a descriptor", 220),
    ("id due: 64", 140),
    ("id due: a larger number", 1_100),
    ("id due: a negative number", 290),
    ("id due: an id of another kind", 310),
    ("id due: an id with a descriptor", 330),
    ("id due: no id, with a descriptor", 200),
    ("memory due: -1 in 32 bits", 210),
    ("memory due: -1 of another kind", 270),
    ("memory due: -1 without a descriptor", 290),
    ("memory due: another number", 1_600),
    ("memory due: another number without a descriptor", 1_100),
    ("a step before peers: another number of another kind", 3_000),
    ("peers: 64 with a descriptor", 420),
    ("peers: a large number without a descriptor", 3_900),
    ("peers: a larger number with a descriptor", 13_000),
    ("peers: a negative number with a descriptor", 6_800),
    ("peers: a negative number without a descriptor", 2_100),
    ("peers: a peer without vectors leaves", 860),
    ("peers: an id of another kind", 1_300),
    ("peers: another number of another kind", 22_000),
    ("peers: the own id, with vectors, leaves", 1_200),
    ("peers: the own id, without vectors, leaves", 100),
    ("closed before: an id", 57_000),
    ("closed before: any other record", 120_000),
    ("refused with 1", 110_000),
    ("no vectors", 16_000),
    ("17 vectors", 19_000),
    ("more vectors than 32 bits hold", 38_000),
    ("other numbers of vectors", 38_000),
    ("1 alone", 40_000),
    ("1 before 2", 2_600),
    ("1 before 10", 68_000),
    ("1 before 2 and 10", 1_000),
    ("refused with 2", 91_000),
    ("no counts", 13_000),
    ("63 counts", 13_000),
    ("65 counts", 12_000),
    ("other numbers of counts", 52_000),
    ("2 alone", 56_000),
    ("2 before 10", 35_000),
    ("refused with 10", 210_000),
    ("10 for the step alone", 27_000),
    ("10 for an own id above 63 alone", 26_000),
    ("10 for more than 8 bytes alone", 27_000),
    ("10 for a count above the configured number alone", 45_000),
    ("10 for such a count alone, closed", 5_500),
    ("10 for an own id alone, version due", 4_500),
    ("10 for an own id alone, id due", 4_400),
    ("10 for a count alone, version due", 1_300),
    ("10 for a count alone, id due", 1_400),
    ("10 for a count alone, memory due", 11_000),
    ("10 for several reasons", 62_000),
];

/// How often each thing was seen.
#[derive(Clone, Debug, Default)]
pub struct Counts {
    pub calls: u64,
    /// Whole records.
    pub records: u64,
    /// Those among them that were read from a damaged state, or behind one.
    pub damaged: u64,
    pub seen: Seen,
}

impl Counts {
    fn see(&mut self, what: &'static str) {
        self.seen.see(what);
    }

    /// What was seen too seldom for so many million records in streams, and what has no bound.
    pub fn gaps(&self, millions: u64) -> Vec<String> {
        self.seen.gaps(&LEAST, millions)
    }

    /// Counts a call and its answer.
    pub fn add(&mut self, call: &Call<'_>, answer: &Answer) {
        self.calls += 1;
        if answer.number != 0 {
            return self.add_refused(call);
        }
        self.see(MESSAGES[answer.message as usize]);
        let Some(record) = ended_record(call.state, call.vectors, call.input) else {
            return self.see(if call.input.is_empty() { "more, of no bytes" } else { "more, of some bytes" });
        };
        self.records += 1;
        self.see(HELD[call.state.progress.held]);
        if call.input.len() > RECORD {
            self.see("records with other bytes behind them");
        }
        match answer.message {
            7 => self.see(why_closed(call.state, record)),
            _ => self.add_edges(call, answer),
        }
    }

    fn add_edges(&mut self, call: &Call<'_>, answer: &Answer) {
        let is_own = answer.id == call.state.progress.own;
        let last = answer.id == IDS as u32 - 1;
        match (answer.message, answer.id) {
            (2, 0) => self.see("own id 0"),
            (2, _) if last => self.see("own id 63"),
            (4, _) if is_own => self.see("vectors of the own id"),
            (4, _) if last => self.see("vectors of peer 63"),
            (5, _) if is_own => self.see("extra vectors of the own id"),
            (6, _) if call.state.counts[answer.id as usize] > 1 => self.see("disconnects of more than one vector"),
            (6, _) => self.see("disconnects of one vector"),
            _ => {}
        }
        if u64::from(answer.count) == MAX_VECTORS {
            self.see(if answer.message == 4 { "sixteenth vectors" } else { "extra vectors above sixteen" });
        }
    }

    fn add_refused(&mut self, call: &Call<'_>) {
        let names = match call.state.refusals(call.vectors)[..] {
            [1] => ["refused with 1", "1 alone"],
            [1, 2] => ["refused with 1", "1 before 2"],
            [1, 10] => ["refused with 1", "1 before 10"],
            [1, 2, 10] => ["refused with 1", "1 before 2 and 10"],
            [2] => ["refused with 2", "2 alone"],
            [2, 10] => ["refused with 2", "2 before 10"],
            _ => ["refused with 10", clause(call.state, call.vectors)],
        };
        names.into_iter().chain(refused_edge(call)).for_each(|name| self.see(name));
    }
}

/// A number of vectors or of counts that is nearly right, and refused.
fn refused_edge(call: &Call<'_>) -> Option<&'static str> {
    match (call.vectors, call.state.counts.len()) {
        (0, _) => Some("no vectors"),
        (17, _) => Some("17 vectors"),
        (1.., _) if call.vectors > u32::MAX.into() => Some("more vectors than 32 bits hold"),
        (17.., _) => Some("other numbers of vectors"),
        (_, 0) => Some("no counts"),
        (_, 63) => Some("63 counts"),
        (_, 65) => Some("65 counts"),
        (_, IDS) => None,
        _ => Some("other numbers of counts"),
    }
}

/// Records by the bytes that were held of them.
const HELD: [&str; RECORD] = [
    "records with 0 bytes held",
    "records with 1 byte held",
    "records with 2 bytes held",
    "records with 3 bytes held",
    "records with 4 bytes held",
    "records with 5 bytes held",
    "records with 6 bytes held",
    "records with 7 bytes held",
    "records with 8 bytes held",
];

/// The clause of number 10 that alone applies.
fn clause(state: &State, vectors: u64) -> &'static str {
    match (&state.faults(vectors)[..], state.progress.due) {
        ([Fault::UnknownStep], _) => "10 for the step alone",
        ([Fault::OwnAboveLast], _) => "10 for an own id above 63 alone",
        ([Fault::TooManyHeld], _) => "10 for more than 8 bytes alone",
        ([Fault::CountAboveConfigured], PEERS) => "10 for a count above the configured number alone",
        ([Fault::CountAboveConfigured], _) => "10 for such a count alone, closed",
        ([Fault::OwnBeforeItsTime], VERSION_DUE) => "10 for an own id alone, version due",
        ([Fault::OwnBeforeItsTime], _) => "10 for an own id alone, id due",
        ([Fault::CountBeforeItsTime], VERSION_DUE) => "10 for a count alone, version due",
        ([Fault::CountBeforeItsTime], ID_DUE) => "10 for a count alone, id due",
        ([Fault::CountBeforeItsTime], _) => "10 for a count alone, memory due",
        _ => "10 for several reasons",
    }
}

/// Why a record that answers closed is not in place.
fn why_closed(state: &State, (kind, number): (u8, i64)) -> &'static str {
    let is_id = (0..IDS as i64).contains(&number);
    match (state.progress.due, kind) {
        (VERSION_DUE, 0) => "version due: another number",
        (VERSION_DUE, 1) if number == 0 => "version due: 0 with a descriptor",
        (VERSION_DUE, 1) => "version due: another number with a descriptor",
        (VERSION_DUE, _) if number == 0 => "version due: 0 of another kind",
        (ID_DUE, 0) if number < 0 => "id due: a negative number",
        (ID_DUE, 0) if number == 64 => "id due: 64",
        (ID_DUE, 0) => "id due: a larger number",
        (ID_DUE, 1) if is_id => "id due: an id with a descriptor",
        (ID_DUE, 1) => "id due: no id, with a descriptor",
        (ID_DUE, _) if is_id => "id due: an id of another kind",
        (MEMORY_DUE, 0) if number == -1 => "memory due: -1 without a descriptor",
        (MEMORY_DUE, 0) => "memory due: another number without a descriptor",
        (MEMORY_DUE, 1) if number == 0xffff_ffff => "memory due: -1 in 32 bits",
        (MEMORY_DUE, 1) => "memory due: another number",
        (MEMORY_DUE, _) if number == -1 => "memory due: -1 of another kind",
        (PEERS, _) => why_closed_with_peers(state, kind, number),
        (CLOSED, 0 | 1) if is_id => "closed before: an id",
        (CLOSED, _) => "closed before: any other record",
        _ => "a step before peers: another number of another kind",
    }
}

fn why_closed_with_peers(state: &State, kind: u8, number: i64) -> &'static str {
    let id = usize::try_from(number).ok().filter(|&id| id < IDS);
    let is_own = id == Some(state.progress.own as usize);
    match (kind, id.map(|id| state.counts[id] > 0)) {
        (0, Some(true)) => "peers: the own id, with vectors, leaves",
        (0, Some(false)) if is_own => "peers: the own id, without vectors, leaves",
        (0, Some(false)) => "peers: a peer without vectors leaves",
        (0, None) if number < 0 => "peers: a negative number without a descriptor",
        (0, None) => "peers: a large number without a descriptor",
        (1, _) if number < 0 => "peers: a negative number with a descriptor",
        (1, _) if number == 64 => "peers: 64 with a descriptor",
        (1, _) => "peers: a larger number with a descriptor",
        (_, Some(_)) => "peers: an id of another kind",
        (_, None) => "peers: another number of another kind",
    }
}

impl fmt::Display for Counts {
    fn fmt(&self, f: &mut fmt::Formatter<'_>) -> fmt::Result {
        let Counts { calls, records, damaged, .. } = self;
        writeln!(f, "protocol: {calls} calls, {records} whole records, {damaged} of them from damaged states")?;
        self.seen.list(&LEAST, f)
    }
}
