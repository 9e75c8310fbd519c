//! Calls of a history, with all their arguments, and how to say them in words.

use std::fmt;

use ivshmem::{MAX_PEERS, Settings};

/// Records of the delivery table that a call is usually lent.
pub const USUAL_RECORDS: usize = MAX_PEERS;

/// One call. The bytes of a store are made from `fill`, so that a history stays small.
#[derive(Clone, Debug, PartialEq, Eq)]
pub enum Call {
    SetUp(Settings),
    Connect { id: u64 },
    Disconnect { id: u64 },
    Reset { id: u64 },
    ConfigurationRead { id: u64, offset: u64, width: u64 },
    ConfigurationWrite { id: u64, offset: u64, width: u64, value: u32 },
    RegisterRead { id: u64, offset: u64, width: u64 },
    RegisterWrite { id: u64, offset: u64, width: u64, value: u32 },
    MsixRead { id: u64, offset: u64, width: u64 },
    MsixWrite { id: u64, offset: u64, width: u64, value: u32 },
    Section { id: u64, offset: u64, length: u64 },
    Load { id: u64, offset: u64, length: usize },
    Store { id: u64, offset: u64, length: usize, fill: u8 },
}

/// The names of the calls, in the order of [`Call::kind`].
pub const KINDS: [&str; 13] = [
    "set up",
    "connect",
    "disconnect",
    "reset",
    "configuration read",
    "configuration write",
    "register read",
    "register write",
    "MSI-X read",
    "MSI-X write",
    "section question",
    "load",
    "store",
];

impl Call {
    /// Which of [`KINDS`] the call is.
    #[must_use]
    pub fn kind(&self) -> usize {
        match self {
            Call::SetUp(_) => 0,
            Call::Connect { .. } => 1,
            Call::Disconnect { .. } => 2,
            Call::Reset { .. } => 3,
            Call::ConfigurationRead { .. } => 4,
            Call::ConfigurationWrite { .. } => 5,
            Call::RegisterRead { .. } => 6,
            Call::RegisterWrite { .. } => 7,
            Call::MsixRead { .. } => 8,
            Call::MsixWrite { .. } => 9,
            Call::Section { .. } => 10,
            Call::Load { .. } => 11,
            Call::Store { .. } => 12,
        }
    }

    /// The peer that the call is by or on.
    #[must_use]
    pub fn peer(&self) -> Option<u64> {
        match *self {
            Call::SetUp(_) => None,
            Call::Connect { id }
            | Call::Disconnect { id }
            | Call::Reset { id }
            | Call::ConfigurationRead { id, .. }
            | Call::ConfigurationWrite { id, .. }
            | Call::RegisterRead { id, .. }
            | Call::RegisterWrite { id, .. }
            | Call::MsixRead { id, .. }
            | Call::MsixWrite { id, .. }
            | Call::Section { id, .. }
            | Call::Load { id, .. }
            | Call::Store { id, .. } => Some(id),
        }
    }

    /// The length of the buffer that the call lends.
    #[must_use]
    pub fn buffer_length(&self) -> usize {
        match *self {
            Call::Load { length, .. } | Call::Store { length, .. } => length,
            _ => 0,
        }
    }

    /// What the lent buffer holds beforehand, at each place.
    pub fn buffer_byte(&self) -> impl Fn(usize) -> u8 + use<> {
        let start = if let Call::Store { fill, .. } = *self { fill } else { 0xb7 };
        move |at: usize| (at as u8).wrapping_mul(29).wrapping_add(start)
    }
}

impl fmt::Display for Call {
    fn fmt(&self, f: &mut fmt::Formatter<'_>) -> fmt::Result {
        let kind = KINDS[self.kind()];
        match *self {
            Call::SetUp(s) => write!(
                f,
                "set up {} peers, {} vectors, state table {}, read/write {}, output {}, base {:#x}, protocol {:#x}, \
                 subsystem {:#x}:{:#x}",
                s.peers,
                s.vectors,
                s.state_table,
                s.read_write,
                s.output,
                s.base,
                s.protocol,
                s.subsystem_vendor,
                s.subsystem_id
            ),
            Call::Connect { id } | Call::Disconnect { id } | Call::Reset { id } => write!(f, "{kind} peer {id}"),
            Call::ConfigurationRead { id, offset, width }
            | Call::RegisterRead { id, offset, width }
            | Call::MsixRead { id, offset, width } => {
                write!(f, "peer {id}: {kind} at {offset:#x}, width {width}")
            }
            Call::ConfigurationWrite { id, offset, width, value }
            | Call::RegisterWrite { id, offset, width, value }
            | Call::MsixWrite { id, offset, width, value } => {
                write!(f, "peer {id}: {kind} at {offset:#x}, width {width}, value {value:#x}")
            }
            Call::Section { id, offset, length } => write!(f, "peer {id}: {kind} at {offset}, length {length}"),
            Call::Load { id, offset, length } => write!(f, "peer {id}: {kind} at {offset}, length {length}"),
            Call::Store { id, offset, length, fill } => {
                write!(f, "peer {id}: {kind} at {offset}, length {length}, bytes from {fill:#x} on")
            }
        }
    }
}

/// How much memory a call is lent.
#[derive(Clone, Copy, Debug, PartialEq, Eq)]
pub struct Lengths {
    /// Words of the hub beyond the right number of them.
    pub words: i64,
    /// Bytes of the region beyond the right number of them.
    pub region: i64,
    /// Records of the delivery table.
    pub records: usize,
}

impl Lengths {
    /// Nothing is wrong with these.
    pub const USUAL: Lengths = Lengths { words: 0, region: 0, records: USUAL_RECORDS };
}

impl fmt::Display for Lengths {
    fn fmt(&self, f: &mut fmt::Formatter<'_>) -> fmt::Result {
        if self.words != 0 {
            write!(f, " [{:+} words]", self.words)?;
        }
        if self.region != 0 {
            write!(f, " [region {:+} bytes]", self.region)?;
        }
        if self.records != USUAL_RECORDS {
            write!(f, " [table of {} records]", self.records)?;
        }
        Ok(())
    }
}

/// One thing that happens in a history.
#[derive(Clone, Debug, PartialEq, Eq)]
pub enum Event {
    /// A call with the lengths that it is lent.
    Call(Call, Lengths),
    /// Bits of one word of the hub are turned over, as broken memory would.
    Flip { word: usize, bits: u32 },
    /// The words become a fresh hub with these settings and with the peers of this mask connected; the region stays. So a
    /// hub with large sections needs no large region.
    Plant(Settings, u64),
}

impl From<Call> for Event {
    fn from(call: Call) -> Event {
        Event::Call(call, Lengths::USUAL)
    }
}

impl fmt::Display for Event {
    fn fmt(&self, f: &mut fmt::Formatter<'_>) -> fmt::Result {
        match self {
            Event::Call(call, lengths) => write!(f, "{call}{lengths}"),
            Event::Flip { word, bits } => write!(f, "bits {bits:#x} of word {word} turn over"),
            Event::Plant(settings, mask) => {
                write!(f, "the words become a hub with the peers of mask {mask:#x} joined: {}", Call::SetUp(*settings))
            }
        }
    }
}
