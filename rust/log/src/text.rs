//! Records, answers and other calls in words, for the reader of a bug report. Numbers of registers are hexadecimal with an `h`
//! behind them from 10 on; places, sizes and offsets of the shared region are decimal.

use std::fmt;

use ivshmem::{Delivery, Placement, Refusal, Section, Settings, register};

use crate::answer::Answer;
use crate::player::{LONGEST_REGION, Played};
use crate::record::Record;

/// A number of a register.
pub(crate) struct Hex(pub u64);

impl fmt::Display for Hex {
    fn fmt(&self, f: &mut fmt::Formatter<'_>) -> fmt::Result {
        match self.0 {
            0..10 => write!(f, "{}", self.0),
            number => write!(f, "{number:X}h"),
        }
    }
}

/// One of something, or several.
struct Count(u64, &'static str);

impl fmt::Display for Count {
    fn fmt(&self, f: &mut fmt::Formatter<'_>) -> fmt::Result {
        let Count(number, name) = self;
        write!(f, "{number} {name}{}", if *number == 1 { "" } else { "s" })
    }
}

/// What stands in configuration space: first byte, number of bytes, name.
const FIELDS: [(u64, u64, &str); 25] = [
    (0x00, 2, "Vendor ID"),
    (0x02, 2, "Device ID"),
    (0x04, 2, "Command"),
    (0x06, 2, "Status"),
    (0x08, 1, "Revision"),
    (0x09, 2, "protocol"),
    (0x0b, 1, "Base Class"),
    (0x10, 4, "BAR 0"),
    (0x14, 4, "BAR 1"),
    (0x2c, 2, "Subsystem Vendor ID"),
    (0x2e, 2, "Subsystem ID"),
    (0x34, 1, "Capabilities Pointer"),
    (0x40, 1, "vendor capability"),
    (0x41, 1, "next capability"),
    (0x42, 1, "capability length"),
    (0x43, 1, "Privileged Control"),
    (0x44, 4, "State Table size"),
    (0x48, 8, "R/W size"),
    (0x50, 8, "output size"),
    (0x58, 8, "base address"),
    (0x60, 1, "MSI-X capability"),
    (0x61, 1, "next capability"),
    (0x62, 2, "Message Control"),
    (0x64, 4, "MSI-X table"),
    (0x68, 4, "MSI-X PBA"),
];

/// What an access to configuration space touches.
fn fields(offset: u64, width: u64) -> Option<String> {
    let end = offset.saturating_add(width);
    let touched = |(start, bytes, _): &&(u64, u64, &str)| offset < start + bytes && *start < end;
    let names: Vec<&str> = FIELDS.iter().filter(touched).map(|(_, _, name)| *name).collect();
    (matches!(width, 1 | 2 | 4) && !names.is_empty()).then(|| names.join(", "))
}

/// What a register is called.
fn register_name(offset: u64) -> Option<String> {
    let name = match offset {
        register::ID => "ID",
        register::MAXIMUM_PEERS => "Maximum Peers",
        register::INTERRUPT_CONTROL => "Interrupt Control",
        register::DOORBELL => "Doorbell",
        register::STATE => "State",
        _ => return None,
    };
    Some(name.into())
}

/// What a word of the MSI-X region is called. Entries are named as far as any hub can have them.
fn msix_name(offset: u64) -> Option<String> {
    const ENTRIES: u64 = 16 * ivshmem::MAX_VECTORS as u64;
    let word = match (offset, offset % 16) {
        (0x800, _) => return Some("PBA".into()),
        (ENTRIES.., _) => return None,
        (_, 0) => "address low",
        (_, 4) => "address high",
        (_, 8) => "data",
        (_, 12) => "control",
        _ => return None,
    };
    Some(format!("entry {} {word}", offset / 16))
}

/// One of the three spaces that a guest reads and writes.
#[derive(Clone, Copy)]
pub(crate) enum Space {
    Configuration,
    Register,
    Msix,
}

/// A place that is read or written, with its name.
struct Access(Space, u64, u64);

impl fmt::Display for Access {
    fn fmt(&self, f: &mut fmt::Formatter<'_>) -> fmt::Result {
        let Access(space, offset, width) = *self;
        let (what, name) = match space {
            Space::Configuration => ("configuration", fields(offset, width)),
            Space::Register => ("register", register_name(offset)),
            Space::Msix => ("MSI-X", msix_name(offset)),
        };
        write!(f, "{what} {offset:02X}h")?;
        // Registers and MSI-X words have four bytes, which goes without saying.
        if matches!(space, Space::Configuration) || width != 4 {
            write!(f, ", {}", Count(width, "byte"))?;
        }
        name.map_or(Ok(()), |name| write!(f, " ({name})"))
    }
}

pub(crate) fn read_text(peer: impl fmt::Display, space: Space, offset: u64, width: u64) -> String {
    format!("peer {peer} reads {}", Access(space, offset, width))
}

pub(crate) fn write_text(peer: impl fmt::Display, space: Space, offset: u64, width: u64, value: u32) -> String {
    let text = format!("peer {peer} writes {} = {}", Access(space, offset, width), Hex(value.into()));
    match (space, offset) {
        (Space::Register, register::DOORBELL) => format!("{text}, vector {} of peer {}", value & 0xffff, value >> 16),
        _ => text,
    }
}

pub(crate) fn load_text(peer: impl fmt::Display, offset: u64, length: usize) -> String {
    match length {
        1 => format!("peer {peer} loads byte {offset}"),
        _ => format!("peer {peer} loads {length} bytes at {offset}"),
    }
}

pub(crate) fn store_text(peer: impl fmt::Display, offset: u64, bytes: &[u8]) -> String {
    match bytes {
        [byte] => format!("peer {peer} stores byte {offset} = {}", Hex((*byte).into())),
        _ => format!("peer {peer} stores {} bytes at {offset}", bytes.len()),
    }
}

pub(crate) fn question_text(peer: impl fmt::Display, offset: u64, length: u64) -> String {
    format!("peer {peer} asks for the section of {} at {offset}", Count(length, "byte"))
}

pub(crate) fn set_up_text(settings: &Settings) -> String {
    format!("set up {}, {} each", Count(settings.peers, "peer"), Count(settings.vectors, "vector"))
}

/// What else a set-up says.
pub(crate) fn set_up_details(settings: &Settings) -> [String; 2] {
    let Settings { state_table, read_write, output, protocol, subsystem_vendor, subsystem_id, .. } = *settings;
    let numbers = [protocol, subsystem_vendor, subsystem_id].map(|number| Hex(number.into()));
    let [protocol, vendor, subsystem_id] = numbers;
    [
        format!("State Table {state_table}, R/W {read_write}, outputs {output}, base {}", Hex(settings.base)),
        format!("protocol {protocol}, subsystem vendor {vendor}, subsystem id {subsystem_id}"),
    ]
}

impl fmt::Display for Record {
    fn fmt(&self, f: &mut fmt::Formatter<'_>) -> fmt::Result {
        let text = match *self {
            Record::SetUp(set_up) => set_up_text(&set_up.into()),
            Record::Connect { peer } => format!("connect peer {peer}"),
            Record::Disconnect { peer } => format!("disconnect peer {peer}"),
            Record::Reset { peer } => format!("reset peer {peer}"),
            Record::ConfigurationRead { peer, offset, width } => {
                read_text(peer, Space::Configuration, offset.into(), width.into())
            }
            Record::ConfigurationWrite { peer, offset, width, value } => {
                write_text(peer, Space::Configuration, offset.into(), width.into(), value)
            }
            Record::RegisterRead { peer, offset } => read_text(peer, Space::Register, offset.into(), 4),
            Record::RegisterWrite { peer, offset, value } => write_text(peer, Space::Register, offset.into(), 4, value),
            Record::MsixRead { peer, offset } => read_text(peer, Space::Msix, offset.into(), 4),
            Record::MsixWrite { peer, offset, value } => write_text(peer, Space::Msix, offset.into(), 4, value),
            Record::Load { peer, offset } => load_text(peer, offset.into(), 1),
            Record::Store { peer, offset, byte } => store_text(peer, offset.into(), &[byte]),
        };
        f.write_str(&text)
    }
}

pub(crate) fn refused_text(refusal: Refusal) -> String {
    format!("refused, {} ({})", refusal.number(), refusal.reason())
}

pub(crate) fn placement_text(placement: &Placement) -> String {
    let section = match placement.section {
        Section::StateTable => "the State Table".into(),
        Section::ReadWrite => "the R/W section".into(),
        Section::Output(owner) => format!("the output section of peer {owner}"),
        other => format!("a section that has no name here, {other:?}"),
    };
    format!("{section}, {}", if placement.may_store { "may store" } else { "may not store" })
}

fn interrupt_text(delivery: &Delivery) -> String {
    let Delivery { address, data, target, vector } = *delivery;
    format!("interrupt to peer {target}, vector {vector}, address {}, data {}", Hex(address), Hex(data.into()))
}

impl fmt::Display for Answer {
    fn fmt(&self, f: &mut fmt::Formatter<'_>) -> fmt::Result {
        match self {
            Answer::Refused(refusal) => f.write_str(&refused_text(*refusal)),
            Answer::Value(value) => write!(f, "{}", Hex((*value).into())),
            Answer::Done(deliveries) => {
                f.write_str("done")?;
                deliveries.iter().try_for_each(|delivery| write!(f, "; {}", interrupt_text(delivery)))
            }
        }
    }
}

/// Why a player refuses a record, where it knows more than the number says: it lends just what is asked for, so that there is
/// no sound hub exactly where there is none.
fn refused_record_text(record: &Record, refusal: Refusal) -> String {
    let total = match record {
        Record::SetUp(set_up) => Settings::from(*set_up).total(),
        _ => None,
    };
    match (refusal, total) {
        (Refusal::BadSetting, Some(total)) if total > LONGEST_REGION => {
            format!("refused, 1 (the sections have {total} bytes in all, and a log takes {LONGEST_REGION})")
        }
        (Refusal::UnsoundHub, _) => "refused, 10 (no hub is set up)".into(),
        _ => refused_text(refusal),
    }
}

/// The place and the record with its answer on a line; then, each on a line of its own, a set-up's other numbers and the
/// interrupts that were delivered.
impl fmt::Display for Played {
    fn fmt(&self, f: &mut fmt::Formatter<'_>) -> fmt::Result {
        let Played { place, record, answer } = self;
        let answered = match answer {
            Answer::Refused(refusal) => refused_record_text(record, *refusal),
            Answer::Value(_) => answer.to_string(),
            Answer::Done(_) => "done".into(),
        };
        write!(f, "{place:>8}  {record}: {answered}")?;
        if let Record::SetUp(set_up) = record {
            set_up_details(&(*set_up).into()).iter().try_for_each(|line| write!(f, "\n{:12}{line}", ""))?;
        }
        let Answer::Done(deliveries) = answer else { return Ok(()) };
        deliveries.iter().try_for_each(|delivery| write!(f, "\n{:12}{}", "", interrupt_text(delivery)))
    }
}
