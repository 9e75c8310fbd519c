//! What a run of joins and leaves has covered, by name.

use std::fmt;

use ivshmem_protocol::raw::Served;

use crate::reader::MAX_VECTORS;
use crate::seen::Seen;
use crate::server::compare::Call;
use crate::server::{Act, IDS, ROOM, Server};

/// What is counted, and how often it must be seen in a million joins and leaves.
pub const LEAST: [(&str, u64); 67] = [
    ("starts", 38_000),
    ("starts with one vector", 16_000),
    ("starts with 2 to 15 vectors", 6_000),
    ("starts with 16 vectors", 15_000),
    ("starts refused with 1", 98_000),
    ("starts with no vectors", 13_000),
    ("starts with 17 vectors", 16_000),
    ("starts with more vectors than 32 bits hold", 33_000),
    ("starts with other numbers of vectors", 33_000),
    ("joins", 480_000),
    ("joins with no others", 23_000),
    ("joins with one other", 18_000),
    ("joins with 2 to 31 others", 250_000),
    ("joins with 32 to 62 others", 170_000),
    ("joins with 63 others", 9_200),
    ("joins with one vector", 120_000),
    ("joins with 2 to 15 vectors", 280_000),
    ("joins with 16 vectors", 73_000),
    ("joins with 2035 messages", 1_400),
    ("joins that get an id above all others", 360_000),
    ("joins that get id 0 below others", 18_000),
    ("joins that get the one free id below a joined one", 43_000),
    ("joins that get one of several free ids below a joined one", 59_000),
    ("leaves", 210_000),
    ("leaves of the only client", 14_000),
    ("leaves of one of two clients", 9_900),
    ("leaves of one of 3 to 32 clients", 100_000),
    ("leaves of one of 33 to 63 clients", 77_000),
    ("leaves of one of 64 clients", 6_500),
    ("leaves of the lowest of several", 20_000),
    ("leaves of one between others", 160_000),
    ("leaves of the highest of several", 20_000),
    ("leaves of id 0", 27_000),
    ("leaves of id 63", 1_800),
    ("buffers of 20350 bytes", 270_000),
    ("longer buffers", 420_000),
    ("refused with 10", 48_000),
    ("10 alone", 21_000),
    ("10 before 11", 17_000),
    ("10 before 12", 860),
    ("10 before 4", 1_900),
    ("10 before 11 and 12", 970),
    ("10 before 11 and 4", 5_700),
    ("10 for no vectors", 7_000),
    ("10 for 17 vectors", 8_500),
    ("10 for more vectors than 32 bits hold", 16_000),
    ("10 for other numbers of vectors", 16_000),
    ("refused with 11", 38_000),
    ("11 alone", 27_000),
    ("11 before 12", 1_400),
    ("11 before 4", 9_300),
    ("11 for no bytes", 3_300),
    ("11 for 20349 bytes", 6_900),
    ("11 for other lengths", 28_000),
    ("refused with 12", 23_000),
    ("12 with one vector", 6_000),
    ("12 with 2 to 15 vectors", 14_000),
    ("12 with 16 vectors", 3_400),
    ("refused with 4", 67_000),
    ("4 for an id, with nobody joined", 40_000),
    ("4 for an id below 64", 5_500),
    ("4 for 64", 3_100),
    ("4 for a joined id and bits above 6", 3_400),
    ("4 for a joined id and bits above 8", 4_200),
    ("4 for a joined id and bits above 32", 2_900),
    ("4 for the largest number", 3_000),
    ("4 for other numbers", 5_000),
];

/// How often each thing was seen.
#[derive(Clone, Debug, Default)]
pub struct Counts {
    /// Joins and leaves.
    pub calls: u64,
    /// Those among them with a state, a buffer or an id that was made up.
    pub hostile: u64,
    /// Messages that were written.
    pub messages: u64,
    pub seen: Seen,
}

impl Counts {
    /// What was seen too seldom for so many million calls, and what has no bound.
    pub fn gaps(&self, millions: u64) -> Vec<String> {
        self.seen.gaps(&LEAST, millions)
    }

    /// Counts a start and its number.
    pub fn add_start(&mut self, vectors: u64, number: u32) {
        self.seen.see(if number == 0 { "starts" } else { "starts refused with 1" });
        self.seen.see(match vectors {
            0 => "starts with no vectors",
            1 => "starts with one vector",
            2..MAX_VECTORS => "starts with 2 to 15 vectors",
            MAX_VECTORS => "starts with 16 vectors",
            17 => "starts with 17 vectors",
            _ if vectors > u32::MAX.into() => "starts with more vectors than 32 bits hold",
            _ => "starts with other numbers of vectors",
        });
    }

    /// Counts a call and its answer.
    pub fn add(&mut self, call: &Call, answer: &Served) {
        self.calls += 1;
        self.messages += answer.messages as u64;
        let server = Server::of(call.server);
        let is_join = call.act == Act::Join;
        match (answer.number, is_join) {
            (0, true) => self.add_join(&server, answer),
            (0, false) => self.add_leave(&server, answer),
            _ => self.add_refused(call, &server),
        }
        if answer.number == 0 {
            self.seen.see(if call.buffer.len() == ROOM { "buffers of 20350 bytes" } else { "longer buffers" });
        }
    }

    fn add_join(&mut self, server: &Server, answer: &Served) {
        self.seen.see("joins");
        self.seen.see(match server.joined.len() {
            0 => "joins with no others",
            1 => "joins with one other",
            2..32 => "joins with 2 to 31 others",
            32..63 => "joins with 32 to 62 others",
            _ => "joins with 63 others",
        });
        self.seen.see(match server.vectors {
            1 => "joins with one vector",
            MAX_VECTORS => "joins with 16 vectors",
            _ => "joins with 2 to 15 vectors",
        });
        let ids_below_highest = server.joined.last().map_or(0, |highest| highest + 1);
        self.seen.see(match ids_below_highest - server.joined.len() as u64 {
            0 => "joins that get an id above all others",
            _ if answer.id == 0 => "joins that get id 0 below others",
            1 => "joins that get the one free id below a joined one",
            _ => "joins that get one of several free ids below a joined one",
        });
        if answer.messages * 10 == ROOM {
            self.seen.see("joins with 2035 messages");
        }
    }

    fn add_leave(&mut self, server: &Server, answer: &Served) {
        self.seen.see("leaves");
        self.seen.see(match server.joined.len() {
            1 => "leaves of the only client",
            2 => "leaves of one of two clients",
            3..33 => "leaves of one of 3 to 32 clients",
            33..64 => "leaves of one of 33 to 63 clients",
            _ => "leaves of one of 64 clients",
        });
        let id = u64::from(answer.id);
        match (server.joined.first() == Some(&id), server.joined.last() == Some(&id)) {
            (true, true) => {}
            (true, false) => self.seen.see("leaves of the lowest of several"),
            (false, true) => self.seen.see("leaves of the highest of several"),
            (false, false) => self.seen.see("leaves of one between others"),
        }
        match id {
            0 => self.seen.see("leaves of id 0"),
            63 => self.seen.see("leaves of id 63"),
            _ => {}
        }
    }

    fn add_refused(&mut self, call: &Call, server: &Server) {
        let names = match server.refusals(call.act, call.buffer.len())[..] {
            [10] => ["refused with 10", "10 alone"],
            [10, 11] => ["refused with 10", "10 before 11"],
            [10, 12] => ["refused with 10", "10 before 12"],
            [10, 4] => ["refused with 10", "10 before 4"],
            [10, 11, 12] => ["refused with 10", "10 before 11 and 12"],
            [10, 11, 4] => ["refused with 10", "10 before 11 and 4"],
            [11] => ["refused with 11", "11 alone"],
            [11, 12] => ["refused with 11", "11 before 12"],
            [11, 4] => ["refused with 11", "11 before 4"],
            [12] => ["refused with 12", of_full(call)],
            _ => ["refused with 4", of_not_joined(call, server)],
        };
        names.into_iter().for_each(|name| self.seen.see(name));
        match names[0] {
            "refused with 10" => self.seen.see(of_vectors(server.vectors)),
            "refused with 11" => self.seen.see(of_short(call.buffer.len())),
            _ => {}
        }
    }
}

fn of_vectors(vectors: u64) -> &'static str {
    match vectors {
        0 => "10 for no vectors",
        17 => "10 for 17 vectors",
        _ if vectors > u32::MAX.into() => "10 for more vectors than 32 bits hold",
        _ => "10 for other numbers of vectors",
    }
}

fn of_short(length: usize) -> &'static str {
    match length {
        0 => "11 for no bytes",
        20349 => "11 for 20349 bytes",
        _ => "11 for other lengths",
    }
}

fn of_full(call: &Call) -> &'static str {
    match call.server.vectors {
        1 => "12 with one vector",
        MAX_VECTORS => "12 with 16 vectors",
        _ => "12 with 2 to 15 vectors",
    }
}

/// Why an id is not joined: its low bits may be those of one that is.
fn of_not_joined(call: &Call, server: &Server) -> &'static str {
    let Act::Leave(id) = call.act else { unreachable!("a join is not refused with 4") };
    let cut = |bits: u64| id >= 1 << bits && server.joined.contains(&(id % (1 << bits)));
    match id {
        0..IDS if server.joined.is_empty() => "4 for an id, with nobody joined",
        0..IDS => "4 for an id below 64",
        64 => "4 for 64",
        u64::MAX => "4 for the largest number",
        _ if cut(32) => "4 for a joined id and bits above 32",
        _ if cut(8) => "4 for a joined id and bits above 8",
        _ if cut(6) => "4 for a joined id and bits above 6",
        _ => "4 for other numbers",
    }
}

impl fmt::Display for Counts {
    fn fmt(&self, f: &mut fmt::Formatter<'_>) -> fmt::Result {
        let Counts { calls, hostile, messages, .. } = self;
        writeln!(f, "server: {calls} joins and leaves, {messages} messages, {hostile} made-up states or buffers")?;
        self.seen.list(&LEAST, f)
    }
}
