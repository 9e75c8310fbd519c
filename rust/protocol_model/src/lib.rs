//! Independent models of the reader of the old server's messages and of the server's side, and what is needed to compare the
//! linked library with them.
//!
//! [`reader`] is the reader's model, written from the rules alone. The rest is the comparison: streams and damaged states made by
//! [`generate`], read on both sides by [`compare`] and counted by [`count`]. [`cutting`] holds one side alone to what it answers
//! for the same stream cut in another way. [`server`] is the server's model, written from the request; its modules do the same for
//! joins and leaves, and [`server::clients`] holds one side alone to what the readers of its clients make of its messages.
//! [`seen`] counts by name, and [`lent`] is memory that a call is lent.
//!
//! All that a reader or a server knows goes into each call and comes back, so a side is plain functions, and a difference is a
//! single call.

#![deny(unsafe_code)]

use ivshmem_protocol::raw::{self, Answer, Progress, Served, Started};

use crate::server::Act;

pub mod compare;
pub mod count;
pub mod cutting;
pub mod generate;
pub mod lent;
// The generator of the hub's model, by its file: that crate links the hub's archive, which is not needed here.
#[path = "../../model/src/random.rs"]
pub mod random;
pub mod reader;
pub mod seen;
pub mod server;

/// One side of a comparison: it reads from a progress record, counts, the configured number of vectors, and the input.
pub type Reading = fn(Progress, &mut [u8], u64, &[u8]) -> Answer;

/// One side of a comparison of servers: its three calls.
#[derive(Clone, Copy)]
pub struct Serving {
    pub start: fn(u64) -> Started,
    pub join: fn(raw::Server, &mut [u8]) -> Served,
    pub leave: fn(raw::Server, u64, &mut [u8]) -> Served,
}

impl Serving {
    /// The linked library.
    pub const LIBRARY: Serving = Serving { start: raw::start, join: raw::join, leave: raw::leave };

    pub fn serve(&self, server: raw::Server, act: Act, buffer: &mut [u8]) -> Served {
        match act {
            Act::Join => (self.join)(server, buffer),
            Act::Leave(id) => (self.leave)(server, id, buffer),
        }
    }
}
