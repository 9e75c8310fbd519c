//! The hub as the rules describe it, written for obviousness. Refusals are the rules' numbers, R1 and so on the rules of
//! docs/RULES.md.

use std::ops::RangeInclusive;

use ivshmem::{Delivery, PeerId, Section, Vector};

/// The most peers, and the most vectors of a peer (R11).
pub const MAX_PEERS: usize = 64;
/// See [`MAX_PEERS`].
pub const MAX_VECTORS: usize = 16;
/// The lowest base that a set-up takes (R12).
pub const MIN_BASE: u64 = 0x10_0000;

/// The numbers of a set-up (R10), wide enough for anything that memory can hold.
#[derive(Clone, Copy, Debug, PartialEq, Eq)]
pub struct Numbers {
    pub peers: u64,
    pub vectors: u64,
    /// S
    pub state_table: u64,
    /// R
    pub read_write: u64,
    /// O
    pub output: u64,
    pub base: u64,
    pub protocol: u64,
    pub subsystem_vendor: u64,
    pub subsystem_id: u64,
}

impl From<&ivshmem::Settings> for Numbers {
    fn from(s: &ivshmem::Settings) -> Numbers {
        Numbers {
            peers: s.peers,
            vectors: s.vectors,
            state_table: s.state_table,
            read_write: s.read_write,
            output: s.output,
            base: s.base,
            protocol: s.protocol.into(),
            subsystem_vendor: s.subsystem_vendor.into(),
            subsystem_id: s.subsystem_id.into(),
        }
    }
}

impl Numbers {
    /// What stands in words that are no hub (R16).
    pub const ZERO: Numbers = Numbers {
        peers: 0,
        vectors: 0,
        state_table: 0,
        read_write: 0,
        output: 0,
        base: 0,
        protocol: 0,
        subsystem_vendor: 0,
        subsystem_id: 0,
    };

    /// T (R13); 128 bits hold it whatever the numbers are.
    #[must_use]
    pub fn total(&self) -> u128 {
        let [s, r, n, o] = [self.state_table, self.read_write, self.peers, self.output].map(u128::from);
        s + r + n * o
    }

    /// Whether a set-up with these numbers is accepted (R10).
    #[must_use]
    pub fn accepted(&self) -> bool {
        const PEERS: RangeInclusive<u64> = 2..=MAX_PEERS as u64;
        const VECTORS: RangeInclusive<u64> = 1..=MAX_VECTORS as u64;
        let whole_pages = |bytes: u64| bytes.is_multiple_of(4096);
        PEERS.contains(&self.peers)
            && VECTORS.contains(&self.vectors)
            && self.state_table != 0
            && whole_pages(self.state_table)
            && self.state_table >= 4 * self.peers
            && whole_pages(self.read_write)
            && whole_pages(self.output)
            && self.total() <= 1 << 30
            && whole_pages(self.base)
            && self.base >= MIN_BASE
            && u128::from(self.base) + self.total() <= 1 << 64
            && [self.protocol, self.subsystem_vendor, self.subsystem_id].iter().all(|&n| n <= 0xffff)
    }
}

/// One MSI-X entry.
#[derive(Clone, Copy, Debug, PartialEq, Eq)]
pub struct Entry {
    pub low: u32,
    pub high: u32,
    pub data: u32,
    pub control: u32,
}

impl Entry {
    /// At reset: masked (R49).
    pub const RESET: Entry = Entry { low: 0, high: 0, data: 0, control: 1 };

    /// Of a connected peer's: address bits 0-1 and control bits 1-31 are 0 (R34).
    fn sound(&self) -> bool {
        self.low & 3 == 0 && self.control <= 1
    }
}

/// One peer's registers. `message` is the high byte of Message Control, at 63h: bit 6 function mask, bit 7 enable. The low
/// byte is V-1, from the set-up.
#[derive(Clone, Copy, Debug, PartialEq, Eq)]
pub struct Peer {
    pub connected: u32,
    pub command: u32,
    pub bar0: u32,
    pub bar1: u32,
    pub privileged: u32,
    pub message: u32,
    pub interrupt: u32,
    pub state: u32,
}

impl Peer {
    /// Reset values (R49), and not connected.
    pub const RESET: Peer =
        Peer { connected: 0, command: 0, bar0: 0, bar1: 0, privileged: 0, message: 0, interrupt: 0, state: 0 };

    /// Connected, with all registers at reset values.
    pub const FRESH: Peer = Peer { connected: 1, ..Peer::RESET };

    /// A connected peer in which no bit is set that a write cannot set (R34).
    fn sound(&self) -> bool {
        self.connected == 1
            && self.command & !0x0406 == 0
            && self.bar0 & 0xfff == 0
            && self.bar1 & 0xfff == 0
            && self.privileged <= 1
            && self.message & !0xc0 == 0
            && self.interrupt <= 1
    }
}

/// What keeps a ring from being delivered (R50, R51).
#[derive(Clone, Copy, Debug, PartialEq, Eq)]
pub enum Block {
    NoSuchId,
    NotConnected,
    NoSuchVector,
    BusMasterOff,
    MsixDisabled,
    FunctionMasked,
    EntryMasked,
    InterruptControlOff,
}

/// What became of a ring (R51 to R53).
#[derive(Clone, Debug, PartialEq, Eq)]
pub enum Ring {
    /// Delivered; whether it cleared the target's Interrupt Control (one-shot).
    Delivered(Delivery, bool),
    /// Lost, for all of these reasons.
    Lost(Vec<Block>),
}

/// The numbers of all refusals that apply to a call, in the order of R30 or R14: the first is the one given.
#[derive(Clone, Debug, PartialEq, Eq)]
pub struct Refused(pub Vec<u32>);

impl Refused {
    /// The number given.
    #[must_use]
    pub fn number(&self) -> u32 {
        self.0[0]
    }
}

fn refuse_where(checks: &[(u32, bool)]) -> Result<(), Refused> {
    let numbers: Vec<u32> = checks.iter().filter(|(_, applies)| *applies).map(|(number, _)| *number).collect();
    if numbers.is_empty() { Ok(()) } else { Err(Refused(numbers)) }
}

/// What a call asks for, as far as refusals look at it.
struct Request {
    /// Length of the lent region, where one is lent.
    region: Option<usize>,
    /// Records of the lent delivery table, where one is lent.
    records: Option<usize>,
    id: u64,
    connect: bool,
    access: Access,
}

enum Access {
    None,
    Space { bytes: u64, widths: &'static [u64], offset: u64, width: u64 },
    Shared { offset: u64, length: u64, store: bool },
}

impl Request {
    fn new(id: u64, access: Access) -> Request {
        Request { region: None, records: None, id, connect: false, access }
    }

    fn region(self, bytes: usize) -> Request {
        Request { region: Some(bytes), ..self }
    }

    fn records(self, records: usize) -> Request {
        Request { records: Some(records), ..self }
    }
}

/// An access to configuration space (R37).
fn configuration_access(offset: u64, width: u64) -> Access {
    Access::Space { bytes: 256, widths: &[1, 2, 4], offset, width }
}

/// An access to the register region (R45) or the MSI-X region (R47).
fn bar_access(offset: u64, width: u64) -> Access {
    Access::Space { bytes: 4096, widths: &[4], offset, width }
}

/// The answer to the section question (R64), where it is not refused.
#[derive(Clone, Copy, Debug, PartialEq, Eq)]
pub struct Placement {
    pub section: Section,
    pub store: bool,
}

/// Settings, peers and their MSI-X entries (R1), in any state that memory can hold: as many peers as the settings say, and of
/// each as many entries, one peer's after another's.
#[derive(Clone, Debug, PartialEq, Eq)]
pub struct Hub {
    pub numbers: Numbers,
    pub peers: Vec<Peer>,
    pub entries: Vec<Entry>,
}

impl Hub {
    /// What stands in words that are no hub: nothing (R16).
    pub const NONE: Hub = Hub { numbers: Numbers::ZERO, peers: Vec::new(), entries: Vec::new() };

    /// A hub with these numbers, which are not too large, and nobody connected (R17).
    #[must_use]
    pub fn fresh(numbers: Numbers) -> Hub {
        let peers = vec![Peer::RESET; numbers.peers as usize];
        let entries = vec![Entry::RESET; (numbers.peers * numbers.vectors) as usize];
        Hub { numbers, peers, entries }
    }

    /// The entries of one peer.
    #[must_use]
    pub fn entries_of(&self, id: u64) -> &[Entry] {
        let vectors = self.numbers.vectors as usize;
        &self.entries[id as usize * vectors..][..vectors]
    }

    /// See [`entries_of`](Hub::entries_of).
    pub fn entries_mut(&mut self, id: u64) -> &mut [Entry] {
        let vectors = self.numbers.vectors as usize;
        &mut self.entries[id as usize * vectors..][..vectors]
    }

    /// R33 to R35: the set-up numbers "would be accepted and each slot is sound".
    #[must_use]
    pub fn sound(&self) -> bool {
        self.numbers.accepted()
            && (0..).zip(&self.peers).all(|(id, peer)| {
                let entries = self.entries_of(id);
                if peer.connected == 0 {
                    *peer == Peer::RESET && entries.iter().all(|entry| *entry == Entry::RESET)
                } else {
                    peer.sound() && entries.iter().all(Entry::sound)
                }
            })
    }

    /// The registers become these, and all entries take their reset values (R57 to R59).
    pub fn restart(&mut self, id: u64, registers: Peer) {
        self.peers[id as usize] = registers;
        self.entries_mut(id).fill(Entry::RESET);
    }

    /// All refusals that apply, in the order of R30. 1 belongs to set-up alone (R19).
    fn refuse(&self, request: &Request) -> Result<(), Refused> {
        let Request { region, records, id, connect, .. } = *request;
        let exists = id < self.numbers.peers;
        let connected = self.peers.get(id as usize).is_some_and(|peer| peer.connected == 1);
        let [width, alignment, range, right] = self.refuse_access(id, &request.access);
        refuse_where(&[
            (10, !self.sound()),
            (2, region.is_some_and(|bytes| bytes as u128 != self.numbers.total())),
            (11, records.is_some_and(|records| (records as u64) < self.numbers.peers)),
            (3, !exists),
            (4, exists && !connect && !connected),
            (5, exists && connect && connected),
            (6, width),
            (7, alignment),
            (8, range),
            (9, right),
        ])
    }

    /// Whether 6, 7, 8 and 9 apply (R24 to R27).
    fn refuse_access(&self, id: u64, access: &Access) -> [bool; 4] {
        match *access {
            Access::None => [false; 4],
            Access::Space { bytes, widths, offset, width } => [
                !widths.contains(&width),
                width != 0 && !offset.is_multiple_of(width),
                offset.checked_add(width).is_none_or(|end| end > bytes),
                false,
            ],
            Access::Shared { length: 0, .. } => [true, false, false, false],
            Access::Shared { offset, length, store } => match self.section_of(offset, length) {
                None => [false, false, true, false],
                Some(section) => [false, false, false, store && !may_store(id, section)],
            },
        }
    }

    /// Set-up (R14, R17): the hub, and the region all zero. No hub is handed in, so whatever the words held before, 10 is not for
    /// that; it is given where their number is not the one that a hub with these numbers takes.
    ///
    /// # Errors
    /// 1, 10 or 2.
    pub fn set_up(numbers: Numbers, words_fit: bool, region: &mut [u8]) -> Result<Hub, Refused> {
        refuse_where(&[(1, !numbers.accepted()), (10, !words_fit), (2, region.len() as u128 != numbers.total())])?;
        region.fill(0);
        Ok(Hub::fresh(numbers))
    }

    /// A question of the host (R8): 1 where the peer is connected, else 0.
    ///
    /// # Errors
    /// 10 or 3.
    pub fn is_connected(&self, id: u64) -> Result<u32, Refused> {
        refuse_where(&[(10, !self.sound()), (3, id >= self.numbers.peers)])?;
        Ok(self.peers[id as usize].connected)
    }

    /// Connect (R59): everything at reset, and nobody is rung.
    ///
    /// # Errors
    /// 10, 3 or 5.
    pub fn connect(&mut self, id: u64) -> Result<(), Refused> {
        self.refuse(&Request { connect: true, ..Request::new(id, Access::None) })?;
        self.restart(id, Peer::FRESH);
        Ok(())
    }

    /// Reset (R57): everything at reset, and the others are rung where State was not 0.
    ///
    /// # Errors
    /// 10, 2, 11, 3 or 4.
    pub fn reset(&mut self, region: &mut [u8], records: usize, id: u64) -> Result<Vec<Ring>, Refused> {
        self.leave(region, records, id, Peer::FRESH)
    }

    /// Disconnect (R58): the same, and the peer is connected no longer.
    ///
    /// # Errors
    /// 10, 2, 11, 3 or 4.
    pub fn disconnect(&mut self, region: &mut [u8], records: usize, id: u64) -> Result<Vec<Ring>, Refused> {
        self.leave(region, records, id, Peer::RESET)
    }

    /// What reset and disconnect share (R57, R58).
    fn leave(&mut self, region: &mut [u8], records: usize, id: u64, after: Peer) -> Result<Vec<Ring>, Refused> {
        self.refuse(&Request::new(id, Access::None).region(region.len()).records(records))?;
        let old = self.peers[id as usize].state;
        self.restart(id, after);
        Ok(self.announce(region, id, old))
    }

    /// The State Table entry takes the peer's State, and the others are rung "only where the State value changes" (R55) from
    /// what the register held (R56).
    fn announce(&mut self, region: &mut [u8], id: u64, old: u32) -> Vec<Ring> {
        let state = self.peers[id as usize].state;
        set_table_entry(region, id, state);
        if state == old { Vec::new() } else { self.ring_others(id) }
    }

    /// The 256 bytes of the peer's configuration space (R38, R39).
    fn configuration(&self, id: usize) -> [u8; 256] {
        let (numbers, peer) = (&self.numbers, &self.peers[id]);
        let mut space = [0; 256];
        let mut put = |at: usize, bytes: &[u8]| space[at..at + bytes.len()].copy_from_slice(bytes);
        put(0x00, &[0x0a, 0x11, 0x06, 0x41]);
        put(0x04, &(peer.command as u16).to_le_bytes());
        put(0x06, &[0x10, 0x00]);
        put(0x09, &(numbers.protocol as u16).to_le_bytes());
        put(0x0b, &[0xff]);
        put(0x10, &peer.bar0.to_le_bytes());
        put(0x14, &peer.bar1.to_le_bytes());
        put(0x2c, &(numbers.subsystem_vendor as u16).to_le_bytes());
        put(0x2e, &(numbers.subsystem_id as u16).to_le_bytes());
        put(0x34, &[0x40]);
        put(0x40, &[0x09, 0x60, 0x20, peer.privileged as u8]);
        put(0x44, &(numbers.state_table as u32).to_le_bytes());
        put(0x48, &numbers.read_write.to_le_bytes());
        put(0x50, &numbers.output.to_le_bytes());
        put(0x58, &numbers.base.to_le_bytes());
        put(0x60, &[0x11, 0x00]);
        put(0x62, &[(numbers.vectors - 1) as u8, peer.message as u8]);
        put(0x64, &0x0000_0001_u32.to_le_bytes());
        put(0x68, &0x0000_0801_u32.to_le_bytes());
        space
    }

    /// A read of configuration space (R40).
    ///
    /// # Errors
    /// 10, 3, 4, 6, 7 or 8.
    pub fn configuration_read(&self, id: u64, offset: u64, width: u64) -> Result<u32, Refused> {
        self.refuse(&Request::new(id, configuration_access(offset, width)))?;
        let (start, width) = (offset as usize, width as usize);
        let mut bytes = [0; 4];
        bytes[..width].copy_from_slice(&self.configuration(id as usize)[start..start + width]);
        Ok(u32::from_le_bytes(bytes))
    }

    /// A write of configuration space (R42).
    ///
    /// # Errors
    /// 10, 3, 4, 6, 7 or 8.
    pub fn configuration_write(&mut self, id: u64, offset: u64, width: u64, value: u32) -> Result<(), Refused> {
        self.refuse(&Request::new(id, configuration_access(offset, width)))?;
        let mut space = self.configuration(id as usize);
        for (at, byte) in (offset as usize..).zip(value.to_le_bytes()).take(width as usize) {
            let mask = writable_bits(at);
            space[at] = space[at] & !mask | byte & mask;
        }
        let two = |at: usize| u32::from(u16::from_le_bytes([space[at], space[at + 1]]));
        let peer = &mut self.peers[id as usize];
        peer.command = two(0x04);
        peer.bar0 = two(0x12) << 16 | two(0x10);
        peer.bar1 = two(0x16) << 16 | two(0x14);
        peer.privileged = u32::from(space[0x43]);
        peer.message = u32::from(space[0x63]);
        Ok(())
    }

    /// Whether Command bit 1 is off at the peer, so that its register region and its MSI-X region are not there (R46).
    fn hidden(&self, id: u64) -> bool {
        self.peers[id as usize].command & 1 << 1 == 0
    }

    /// A read of the register region (R45, R46).
    ///
    /// # Errors
    /// 10, 3, 4, 6, 7 or 8.
    pub fn register_read(&self, id: u64, offset: u64, width: u64) -> Result<u32, Refused> {
        self.refuse(&Request::new(id, bar_access(offset, width)))?;
        if self.hidden(id) {
            return Ok(0xffff_ffff);
        }
        let peer = &self.peers[id as usize];
        Ok(match offset {
            0x00 => id as u32,
            0x04 => self.numbers.peers as u32,
            0x08 => peer.interrupt,
            0x10 => peer.state,
            _ => 0,
        })
    }

    /// A write of the register region (R45, R46).
    ///
    /// # Errors
    /// 10, 2, 11, 3, 4, 6, 7 or 8.
    pub fn register_write(
        &mut self,
        region: &mut [u8],
        records: usize,
        id: u64,
        (offset, width): (u64, u64),
        value: u32,
    ) -> Result<Vec<Ring>, Refused> {
        self.refuse(&Request::new(id, bar_access(offset, width)).region(region.len()).records(records))?;
        if self.hidden(id) {
            return Ok(Vec::new());
        }
        let peer = &mut self.peers[id as usize];
        match offset {
            0x08 => {
                peer.interrupt = value & 1;
                Ok(Vec::new())
            }
            // Doorbell (R54): v = bits 0-15, t = bits 16-31; a peer may ring itself.
            0x0c => Ok(vec![self.ring(u64::from(value >> 16), u64::from(value & 0xffff))]),
            // State (R55).
            0x10 => {
                let old = peer.state;
                peer.state = value;
                Ok(self.announce(region, id, old))
            }
            _ => Ok(Vec::new()),
        }
    }

    /// A read of the MSI-X region (R46, R47).
    ///
    /// # Errors
    /// 10, 3, 4, 6, 7 or 8.
    pub fn msix_read(&self, id: u64, offset: u64, width: u64) -> Result<u32, Refused> {
        self.refuse(&Request::new(id, bar_access(offset, width)))?;
        if self.hidden(id) {
            return Ok(0xffff_ffff);
        }
        if offset / 16 >= self.numbers.vectors {
            return Ok(0);
        }
        let entry = &self.entries_of(id)[(offset / 16) as usize];
        Ok(match offset % 16 {
            0 => entry.low,
            4 => entry.high,
            8 => entry.data,
            _ => entry.control,
        })
    }

    /// A write of the MSI-X region (R46 to R48).
    ///
    /// # Errors
    /// 10, 3, 4, 6, 7 or 8.
    pub fn msix_write(&mut self, id: u64, offset: u64, width: u64, value: u32) -> Result<(), Refused> {
        self.refuse(&Request::new(id, bar_access(offset, width)))?;
        if self.hidden(id) || offset / 16 >= self.numbers.vectors {
            return Ok(());
        }
        let entry = &mut self.entries_mut(id)[(offset / 16) as usize];
        match offset % 16 {
            0 => entry.low = value & !3,
            4 => entry.high = value,
            8 => entry.data = value,
            _ => entry.control = value & 1,
        }
        Ok(())
    }

    /// A ring is delivered exactly where none of these holds (R50, R51). Where there is no such peer or vector, what it lacks
    /// can't be looked at.
    #[must_use]
    pub fn blocks(&self, target: u64, vector: u64) -> Vec<Block> {
        let mut blocks = Vec::new();
        let mut unless = |holds: bool, block: Block| {
            if !holds {
                blocks.push(block);
            }
        };
        let has_vector = vector < self.numbers.vectors;
        unless(has_vector, Block::NoSuchVector);
        unless(target < self.numbers.peers, Block::NoSuchId);
        if target >= self.numbers.peers {
            return blocks;
        }
        let peer = &self.peers[target as usize];
        unless(peer.connected == 1, Block::NotConnected);
        if peer.connected != 1 {
            return blocks;
        }
        unless(peer.command & 1 << 2 != 0, Block::BusMasterOff);
        unless(peer.message & 1 << 7 != 0, Block::MsixDisabled);
        unless(peer.message & 1 << 6 == 0, Block::FunctionMasked);
        unless(peer.interrupt == 1, Block::InterruptControlOff);
        if has_vector {
            unless(self.entries_of(target)[vector as usize].control & 1 == 0, Block::EntryMasked);
        }
        blocks
    }

    /// One ring: deliver, then clear the target's Interrupt Control if it is one-shot (R52); or change nothing (R53).
    fn ring(&mut self, target: u64, vector: u64) -> Ring {
        let blocks = self.blocks(target, vector);
        if !blocks.is_empty() {
            return Ring::Lost(blocks);
        }
        let entry = self.entries_of(target)[vector as usize];
        let peer = &mut self.peers[target as usize];
        let delivery = Delivery {
            address: u64::from(entry.high) << 32 | u64::from(entry.low),
            data: entry.data,
            target: PeerId(target as u16),
            vector: Vector(vector as u16),
        };
        let one_shot = peer.privileged & 1 == 1;
        if one_shot {
            peer.interrupt = 0;
        }
        Ring::Delivered(delivery, one_shot)
    }

    /// Vector 0 "is rung at every other id, ascending" (R55).
    fn ring_others(&mut self, id: u64) -> Vec<Ring> {
        (0..self.numbers.peers).filter(|&other| other != id).map(|other| self.ring(other, 0)).collect()
    }

    /// The section that holds the whole shared range (R61, R62), if there is one. The range is not empty.
    #[must_use]
    pub fn section_of(&self, offset: u64, length: u64) -> Option<Section> {
        let Numbers { peers, state_table, read_write, output, .. } = self.numbers;
        let inside = |start: u64, size: u64| {
            offset >= start && u128::from(offset) + u128::from(length) <= u128::from(start) + u128::from(size)
        };
        if inside(0, state_table) {
            return Some(Section::StateTable);
        }
        if inside(state_table, read_write) {
            return Some(Section::ReadWrite);
        }
        let owner =
            (0..peers.min(MAX_PEERS as u64)).find(|owner| inside(state_table + read_write + owner * output, output));
        owner.map(|owner| Section::Output(PeerId(owner as u16)))
    }

    /// The section question (R64); it never gives 9.
    ///
    /// # Errors
    /// 10, 3, 4, 6 or 8.
    pub fn section(&self, id: u64, offset: u64, length: u64) -> Result<Placement, Refused> {
        self.refuse(&Request::new(id, Access::Shared { offset, length, store: false }))?;
        let section = self.section_of(offset, length).ok_or(Refused(vec![8]))?;
        Ok(Placement { section, store: may_store(id, section) })
    }

    /// A load of shared bytes (R65).
    ///
    /// # Errors
    /// 10, 2, 3, 4, 6 or 8.
    pub fn load(&self, region: &[u8], id: u64, offset: u64, buffer: &mut [u8]) -> Result<(), Refused> {
        let access = Access::Shared { offset, length: buffer.len() as u64, store: false };
        self.refuse(&Request::new(id, access).region(region.len()))?;
        buffer.copy_from_slice(&region[offset as usize..][..buffer.len()]);
        Ok(())
    }

    /// A store of shared bytes (R65).
    ///
    /// # Errors
    /// 10, 2, 3, 4, 6, 8 or 9.
    pub fn store(&self, region: &mut [u8], id: u64, offset: u64, bytes: &[u8]) -> Result<(), Refused> {
        let access = Access::Shared { offset, length: bytes.len() as u64, store: true };
        self.refuse(&Request::new(id, access).region(region.len()))?;
        region[offset as usize..][..bytes.len()].copy_from_slice(bytes);
        Ok(())
    }
}

/// The mask of a byte of configuration space (R38, R41).
fn writable_bits(at: usize) -> u8 {
    match at {
        0x04 => 0x06,
        0x05 => 0x04,
        0x11 | 0x15 => 0xf0,
        0x12 | 0x13 | 0x16 | 0x17 => 0xff,
        0x43 => 0x01,
        0x63 => 0xc0,
        _ => 0x00,
    }
}

/// The peer's State Table entry takes the value (R55).
fn set_table_entry(region: &mut [u8], id: u64, value: u32) {
    region[4 * id as usize..][..4].copy_from_slice(&value.to_le_bytes());
}

/// Whether the peer may store to the section (R63).
fn may_store(id: u64, section: Section) -> bool {
    match section {
        Section::StateTable => false,
        Section::ReadWrite => true,
        Section::Output(owner) => u64::from(owner.0) == id,
        _ => unreachable!("the rules have no other section"),
    }
}
