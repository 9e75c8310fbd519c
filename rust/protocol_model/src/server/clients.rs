//! Each client of a server has a reader, the library's: what the server sends to it, cut anywhere, must tell it who is joined.

use std::collections::BTreeMap;
use std::{fmt, mem};

use ivshmem_protocol::{Due, Message, Reader, raw};

use crate::Serving;
use crate::generate::Generator;
use crate::server::generate::History;
use crate::server::{Act, IDS, ROOM, SENT, Server};

/// What a run has seen.
#[derive(Clone, Copy, Debug, Default)]
pub struct Heard {
    /// Joins and leaves that were taken.
    pub calls: u64,
    /// Records that were read, and the pieces that they came in.
    pub records: u64,
    pub pieces: u64,
    /// How often a reader was held to who is joined, and how often that was the reader of a client that left.
    pub checked: u64,
    pub left: u64,
    /// Clients with an id that another had before them.
    pub again: u64,
    /// Joins that have filled the server.
    pub filled: u64,
}

impl fmt::Display for Heard {
    fn fmt(&self, f: &mut fmt::Formatter<'_>) -> fmt::Result {
        let Heard { calls, records, pieces, checked, left, again, filled } = self;
        write!(
            f,
            "{calls} joins and leaves, {records} records in {pieces} pieces, {checked} readers that know who is joined, "
        )?;
        write!(f, "{left} of them of clients that left, {again} ids taken again, {filled} times full")
    }
}

/// A client: its reader, and what was sent to it and not read.
struct Client {
    reader: Reader,
    waiting: Vec<u8>,
}

impl Client {
    /// Reads so many bytes of what waits, cut anywhere.
    fn read(&mut self, length: usize, generator: &mut Generator, heard: &mut Heard) -> Result<(), String> {
        let bytes: Vec<u8> = self.waiting.drain(..length).collect();
        for piece in generator.cut(&bytes) {
            heard.pieces += 1;
            for message in self.reader.messages(piece) {
                heard.records += 1;
                if matches!(message, Message::Extra { .. } | Message::Closed | Message::Unknown { .. }) {
                    return Err(format!("a reader answers {message:?}"));
                }
            }
        }
        Ok(())
    }

    /// Reads all that waits, and then knows its own id and who is joined.
    fn check(
        &mut self,
        id: u8,
        server: raw::Server,
        generator: &mut Generator,
        heard: &mut Heard,
    ) -> Result<(), String> {
        self.read(self.waiting.len(), generator, heard)?;
        let joined = Server::of(server).joined;
        let counts = (0..IDS).map(|id| if joined.contains(&id) { server.vectors as u8 } else { 0 });
        let is_right = self.reader.counts().iter().copied().eq(counts)
            && (self.reader.due(), self.reader.progress().held) == (Due::Peers, 0)
            && self.reader.own_id() == Some(id);
        if !is_right {
            return Err(format!("client {id} knows {:?}, and joined are {joined:?}", self.reader));
        }
        heard.checked += 1;
        Ok(())
    }
}

/// A server with its clients, by their ids.
struct World<'a> {
    server: raw::Server,
    clients: BTreeMap<u8, Client>,
    /// Which ids a client has had.
    used: [bool; IDS as usize],
    generator: &'a mut Generator,
    heard: &'a mut Heard,
}

impl World<'_> {
    /// Takes what an accepted call has answered and written.
    fn take(&mut self, act: Act, answer: raw::Served, buffer: &[u8]) -> Result<(), String> {
        let id = answer.id as u8;
        match act {
            Act::Join => self.welcome(id)?,
            Act::Leave(_) => self.dismiss(id)?,
        }
        self.server = answer.server;
        for message in buffer[..SENT * answer.messages].chunks(SENT) {
            let client = self.clients.get_mut(&message[0]);
            let client = client.ok_or_else(|| format!("{act:?}: a message to {}, who is not joined", message[0]))?;
            client.waiting.extend(&message[1..]);
        }
        self.heard.calls += 1;
        Ok(())
    }

    /// A client comes, which knows nothing yet.
    fn welcome(&mut self, id: u8) -> Result<(), String> {
        let reader = Reader::new(self.server.vectors).expect("a number of vectors");
        let used = self.used.get_mut(usize::from(id)).ok_or_else(|| format!("{id} is no id"))?;
        self.heard.again += u64::from(mem::replace(used, true));
        if self.clients.insert(id, Client { reader, waiting: Vec::new() }).is_some() {
            return Err(format!("{id} is given to two clients"));
        }
        self.heard.filled += u64::from(self.clients.len() == self.used.len());
        Ok(())
    }

    /// A client goes, and reads what was sent to it before: who was joined then, itself among them.
    fn dismiss(&mut self, id: u8) -> Result<(), String> {
        let mut client = self.clients.remove(&id).ok_or_else(|| format!("{id} leaves, and is not joined"))?;
        self.heard.left += 1;
        client.check(id, self.server, self.generator, self.heard)
    }

    /// Some clients read a part of what was sent to them.
    fn read_some(&mut self) -> Result<(), String> {
        for client in self.clients.values_mut() {
            if self.generator.random.chance(1, 16) {
                let length = self.generator.random.below(client.waiting.len() as u64 + 1) as usize;
                client.read(length, self.generator, self.heard)?;
            }
        }
        Ok(())
    }

    /// All clients read all that was sent to them.
    fn check_all(&mut self) -> Result<(), String> {
        let clients = &mut self.clients;
        clients.iter_mut().try_for_each(|(&id, client)| client.check(id, self.server, self.generator, self.heard))
    }
}

/// One server from its start, with its clients.
fn history(side: &Serving, generator: &mut Generator, heard: &mut Heard) -> Result<(), String> {
    let server = raw::Server { joined: 0, vectors: generator.vectors() };
    let mut world = World { server, clients: BTreeMap::new(), used: [false; IDS as usize], generator, heard };
    let mut buffer = vec![0; ROOM];
    let mut history = History::new(world.generator);
    while let Some(act) = history.next(world.generator, world.server) {
        let answer = side.serve(world.server, act, &mut buffer);
        if answer.number == 0 {
            world.take(act, answer, &buffer)?;
        }
        world.read_some()?;
        if world.generator.random.chance(1, 64) {
            world.check_all()?;
        }
    }
    world.check_all()
}

/// Makes so many joins and leaves or a few more, in random histories, and has every client read what it is sent.
///
/// # Errors
/// The first client that is told something wrong.
pub fn run(side: &Serving, seed: u64, calls: u64) -> Result<Heard, String> {
    let (mut generator, mut heard) = (Generator::new(seed), Heard::default());
    while heard.calls < calls {
        history(side, &mut generator, &mut heard)?;
    }
    Ok(heard)
}
