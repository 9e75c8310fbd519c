//! What the yardsticks share: the rules over plain numbers.

use ivshmem::{
    CONFIGURATION_BYTES, Delivery, MAX_PEERS, MAX_VECTORS, MIN_BASE, MSIX_BYTES, PeerId, REGISTER_BYTES, Vector,
};
pub use model::hub::{Entry, Numbers};

pub const MEMORY_SPACE: u32 = 1 << 1;
pub const BUS_MASTER: u32 = 1 << 2;
pub const FUNCTION_MASK: u32 = 1 << 6;
pub const MSIX_ENABLE: u32 = 1 << 7;

/// The bits of each register that a guest can set.
pub const COMMAND_BITS: u32 = 0x0406;
pub const BAR_BITS: u32 = 0xffff_f000;
pub const MESSAGE_BITS: u32 = FUNCTION_MASK | MSIX_ENABLE;
pub const ADDRESS_BITS: u32 = !3;

const PAGE: u64 = 4096;
const MOST_BYTES: u64 = 1 << 30;

/// A peer's registers. `message` is the high byte of Message Control.
#[derive(Clone, Copy, Debug, Default, PartialEq, Eq)]
pub struct Registers {
    pub connected: u32,
    pub command: u32,
    pub bar0: u32,
    pub bar1: u32,
    pub privileged: u32,
    pub message: u32,
    pub interrupt: u32,
    pub state: u32,
}

/// How many words a hub with these numbers has.
pub use model::layout::hub_words as words_asked;

/// The region's length; the numbers are accepted ones, or small enough not to overflow.
#[must_use]
pub fn total(n: &Numbers) -> u64 {
    n.state_table + n.read_write + n.peers * n.output
}

/// Check 1. No size is added up before it is known to be small.
#[must_use]
pub fn accepted(n: &Numbers) -> bool {
    let pages = |bytes: u64| bytes.is_multiple_of(PAGE);
    (2..=MAX_PEERS as u64).contains(&n.peers)
        && (1..=MAX_VECTORS as u64).contains(&n.vectors)
        && n.state_table != 0
        && pages(n.state_table)
        && n.state_table >= 4 * n.peers
        && pages(n.read_write)
        && pages(n.output)
        && n.state_table <= MOST_BYTES
        && n.read_write <= MOST_BYTES
        && n.output <= MOST_BYTES
        && total(n) <= MOST_BYTES
        && pages(n.base)
        && n.base >= MIN_BASE
        && n.base.checked_add(total(n) - 1).is_some()
        && n.protocol <= 0xffff
        && n.subsystem_vendor <= 0xffff
        && n.subsystem_id <= 0xffff
}

/// Checks 6, 7 and 8 for configuration space.
pub fn configuration_access(offset: u64, width: u64) -> Result<(), u32> {
    if !matches!(width, 1 | 2 | 4) {
        return Err(6);
    }
    access(CONFIGURATION_BYTES, offset, width)
}

/// The same for the register region and the MSI-X region, which have one length.
pub fn bar_access(offset: u64, width: u64) -> Result<(), u32> {
    const { assert!(REGISTER_BYTES == MSIX_BYTES) };
    if width != 4 {
        return Err(6);
    }
    access(REGISTER_BYTES, offset, width)
}

fn access(bytes: u64, offset: u64, width: u64) -> Result<(), u32> {
    // The widths are powers of two.
    if offset & (width - 1) != 0 {
        return Err(7);
    }
    if offset > bytes - width {
        return Err(8);
    }
    Ok(())
}

/// The sections that there are. The wrapper's type also has room for one that it does not know.
#[derive(Clone, Copy)]
pub enum Section {
    StateTable,
    ReadWrite,
    Output(PeerId),
}

/// Checks 6 and 8 for a shared range: the section that it lies in.
pub fn section(n: &Numbers, offset: u64, length: u64) -> Result<Section, u32> {
    if length == 0 {
        return Err(6);
    }
    let end = offset.checked_add(length).ok_or(8u32)?;
    let outputs = n.state_table + n.read_write;
    if end <= n.state_table {
        return Ok(Section::StateTable);
    }
    if offset >= n.state_table && end <= outputs {
        return Ok(Section::ReadWrite);
    }
    if offset < outputs || n.output == 0 {
        return Err(8);
    }
    let owner = (offset - outputs) / n.output;
    if owner >= n.peers || end > outputs + (owner + 1) * n.output {
        return Err(8);
    }
    Ok(Section::Output(PeerId(owner as u16)))
}

#[must_use]
pub fn may_store(section: Section, id: u64) -> bool {
    match section {
        Section::StateTable => false,
        Section::ReadWrite => true,
        Section::Output(owner) => u64::from(owner.0) == id,
    }
}

/// The aligned configuration word at an offset.
fn configuration_word(n: &Numbers, r: &Registers, at: u64) -> u32 {
    match at {
        0x00 => 0x4106_110a,
        0x04 => 0x0010_0000 | r.command,
        0x08 => 0xff00_0000 | (n.protocol as u32) << 8,
        0x10 => r.bar0,
        0x14 => r.bar1,
        0x2c => (n.subsystem_id as u32) << 16 | n.subsystem_vendor as u32,
        0x34 => 0x40,
        0x40 => r.privileged << 24 | 0x0020_6009,
        0x44 => n.state_table as u32,
        0x48 => n.read_write as u32,
        0x50 => n.output as u32,
        0x58 => n.base as u32,
        0x5c => (n.base >> 32) as u32,
        0x60 => r.message << 24 | (n.vectors as u32 - 1) << 16 | 0x11,
        0x64 => 0x0000_0001,
        0x68 => 0x0000_0801,
        _ => 0,
    }
}

/// The bits that an access of this width reaches, from bit 0 on.
fn width_bits(width: u64) -> u32 {
    u32::MAX >> (32 - 8 * width)
}

#[must_use]
pub fn configuration_read(n: &Numbers, r: &Registers, offset: u64, width: u64) -> u32 {
    configuration_word(n, r, offset & !3) >> (8 * (offset & 3)) & width_bits(width)
}

pub fn configuration_write(r: &mut Registers, offset: u64, width: u64, value: u32) {
    let shift = 8 * (offset & 3);
    let reached = width_bits(width) << shift;
    let value = value << shift;
    let replace = |register: &mut u32, bits: u32| *register = *register & !(bits & reached) | value & bits & reached;
    // Privileged Control and the high byte of Message Control are the highest byte of their words.
    let replace_high = |register: &mut u32, bits: u32| {
        let bits = bits & reached >> 24;
        *register = *register & !bits | value >> 24 & bits;
    };
    match offset & !3 {
        0x04 => replace(&mut r.command, COMMAND_BITS),
        0x10 => replace(&mut r.bar0, BAR_BITS),
        0x14 => replace(&mut r.bar1, BAR_BITS),
        0x40 => replace_high(&mut r.privileged, 1),
        0x60 => replace_high(&mut r.message, MESSAGE_BITS),
        _ => {}
    }
}

/// Whether a ring passes the switches of a peer, and of the entry whose control word this is.
#[inline(always)]
#[must_use]
pub fn passes(r: &Registers, control: u32) -> bool {
    r.connected == 1
        && r.command & BUS_MASTER != 0
        && r.message & (MSIX_ENABLE | FUNCTION_MASK) == MSIX_ENABLE
        && r.interrupt & 1 == 1
        && control & 1 == 0
}

#[inline(always)]
#[must_use]
pub fn delivery(target: usize, vector: usize, entry: &Entry) -> Delivery {
    Delivery {
        address: u64::from(entry.high) << 32 | u64::from(entry.low),
        data: entry.data,
        target: PeerId(target as u16),
        vector: Vector(vector as u16),
    }
}

/// The word of an entry at an offset below 16.
#[must_use]
pub fn entry_word(e: &Entry, at: u64) -> u32 {
    match at {
        0x0 => e.low,
        0x4 => e.high,
        0x8 => e.data,
        _ => e.control,
    }
}

pub fn put_entry_word(e: &mut Entry, at: u64, value: u32) {
    match at {
        0x0 => e.low = value & ADDRESS_BITS,
        0x4 => e.high = value,
        0x8 => e.data = value,
        _ => e.control = value & 1,
    }
}
