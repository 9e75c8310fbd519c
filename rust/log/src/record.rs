//! Records: one kind for each call that a log can hold.

use ivshmem::{PeerId, Settings};

/// Bytes of the longest record, a set-up.
pub const LONGEST_RECORD: usize = 39;

/// The numbers of a set-up, in the widths that a log has for them; each means what it means in [`Settings`].
#[derive(Clone, Copy, Debug, PartialEq, Eq, Hash)]
#[allow(missing_docs)]
pub struct SetUp {
    pub peers: u16,
    pub vectors: u16,
    pub state_table: u32,
    pub read_write: u64,
    pub output: u64,
    pub base: u64,
    pub protocol: u16,
    pub subsystem_vendor: u16,
    pub subsystem_id: u16,
}

impl From<SetUp> for Settings {
    fn from(set_up: SetUp) -> Settings {
        Settings {
            peers: set_up.peers.into(),
            vectors: set_up.vectors.into(),
            state_table: set_up.state_table.into(),
            read_write: set_up.read_write,
            output: set_up.output,
            base: set_up.base,
            protocol: set_up.protocol,
            subsystem_vendor: set_up.subsystem_vendor,
            subsystem_id: set_up.subsystem_id,
        }
    }
}

impl SetUp {
    /// The settings as a log has them; nothing where a number is too wide for it, which set-up refuses anyway.
    #[must_use]
    pub fn from_settings(settings: &Settings) -> Option<SetUp> {
        Some(SetUp {
            peers: settings.peers.try_into().ok()?,
            vectors: settings.vectors.try_into().ok()?,
            state_table: settings.state_table.try_into().ok()?,
            read_write: settings.read_write,
            output: settings.output,
            base: settings.base,
            protocol: settings.protocol,
            subsystem_vendor: settings.subsystem_vendor,
            subsystem_id: settings.subsystem_id,
        })
    }
}

/// One record. Every value of this type has its bytes. Registers and MSI-X words are read and written by 4 bytes.
#[derive(Clone, Copy, Debug, PartialEq, Eq, Hash)]
#[allow(missing_docs)]
pub enum Record {
    /// 00
    SetUp(SetUp),
    /// 01
    Connect { peer: PeerId },
    /// 02
    Disconnect { peer: PeerId },
    /// 03
    Reset { peer: PeerId },
    /// 04
    ConfigurationRead { peer: PeerId, offset: u16, width: u8 },
    /// 05
    ConfigurationWrite { peer: PeerId, offset: u16, width: u8, value: u32 },
    /// 06
    RegisterRead { peer: PeerId, offset: u16 },
    /// 07
    RegisterWrite { peer: PeerId, offset: u16, value: u32 },
    /// 08
    MsixRead { peer: PeerId, offset: u16 },
    /// 09
    MsixWrite { peer: PeerId, offset: u16, value: u32 },
    /// 0A: one shared byte is loaded.
    Load { peer: PeerId, offset: u32 },
    /// 0B: one shared byte is stored.
    Store { peer: PeerId, offset: u32, byte: u8 },
}

impl Record {
    /// What the kinds are called, in the order of their bytes.
    pub const KINDS: [&str; 12] = [
        "set-up",
        "connect",
        "disconnect",
        "reset",
        "configuration read",
        "configuration write",
        "register read",
        "register write",
        "MSI-X read",
        "MSI-X write",
        "load",
        "store",
    ];

    /// Bytes of a record of this kind, the kind's own among them; nothing for a kind that there is not.
    #[must_use]
    pub const fn length(kind: u8) -> Option<usize> {
        Some(match kind {
            0x00 => LONGEST_RECORD,
            0x01..=0x03 => 3,
            0x04 => 6,
            0x05 => 10,
            0x06 | 0x08 => 5,
            0x07 | 0x09 => 9,
            0x0a => 7,
            0x0b => 8,
            _ => return None,
        })
    }

    /// The record's kind, its first byte.
    #[must_use]
    pub const fn kind(&self) -> u8 {
        match self {
            Record::SetUp(_) => 0x00,
            Record::Connect { .. } => 0x01,
            Record::Disconnect { .. } => 0x02,
            Record::Reset { .. } => 0x03,
            Record::ConfigurationRead { .. } => 0x04,
            Record::ConfigurationWrite { .. } => 0x05,
            Record::RegisterRead { .. } => 0x06,
            Record::RegisterWrite { .. } => 0x07,
            Record::MsixRead { .. } => 0x08,
            Record::MsixWrite { .. } => 0x09,
            Record::Load { .. } => 0x0a,
            Record::Store { .. } => 0x0b,
        }
    }

    /// Puts the record's bytes at the end of the log.
    pub fn encode(&self, log: &mut Vec<u8>) {
        log.push(self.kind());
        let mut put = |bytes: &[u8]| log.extend_from_slice(bytes);
        let mut access = |peer: PeerId, offset: u16, rest: &[&[u8]]| {
            put(&peer.0.to_le_bytes());
            put(&offset.to_le_bytes());
            rest.iter().for_each(|bytes| put(bytes));
        };
        match *self {
            Record::SetUp(set_up) => encode_set_up(&set_up, log),
            Record::Connect { peer } | Record::Disconnect { peer } | Record::Reset { peer } => {
                put(&peer.0.to_le_bytes());
            }
            Record::ConfigurationRead { peer, offset, width } => access(peer, offset, &[&[width]]),
            Record::ConfigurationWrite { peer, offset, width, value } => {
                access(peer, offset, &[&[width], &value.to_le_bytes()]);
            }
            Record::RegisterRead { peer, offset } | Record::MsixRead { peer, offset } => access(peer, offset, &[]),
            Record::RegisterWrite { peer, offset, value } | Record::MsixWrite { peer, offset, value } => {
                access(peer, offset, &[&value.to_le_bytes()]);
            }
            Record::Load { peer, offset } => {
                put(&peer.0.to_le_bytes());
                put(&offset.to_le_bytes());
            }
            Record::Store { peer, offset, byte } => {
                put(&peer.0.to_le_bytes());
                put(&offset.to_le_bytes());
                put(&[byte]);
            }
        }
    }

    /// The record that these bytes are, no fewer and no more of them.
    #[must_use]
    pub fn decode(bytes: &[u8]) -> Option<Record> {
        let (&kind, body) = bytes.split_first()?;
        let mut body = Fields(body);
        let record = match kind {
            0x00 => Record::SetUp(decode_set_up(&mut body)?),
            _ => decode_call(kind, PeerId(body.two()?), &mut body)?,
        };
        body.0.is_empty().then_some(record)
    }
}

fn encode_set_up(set_up: &SetUp, log: &mut Vec<u8>) {
    log.extend(set_up.peers.to_le_bytes());
    log.extend(set_up.vectors.to_le_bytes());
    log.extend(set_up.state_table.to_le_bytes());
    for number in [set_up.read_write, set_up.output, set_up.base] {
        log.extend(number.to_le_bytes());
    }
    for number in [set_up.protocol, set_up.subsystem_vendor, set_up.subsystem_id] {
        log.extend(number.to_le_bytes());
    }
}

fn decode_set_up(body: &mut Fields<'_>) -> Option<SetUp> {
    // In the order in which the log has them.
    Some(SetUp {
        peers: body.two()?,
        vectors: body.two()?,
        state_table: body.four()?,
        read_write: body.eight()?,
        output: body.eight()?,
        base: body.eight()?,
        protocol: body.two()?,
        subsystem_vendor: body.two()?,
        subsystem_id: body.two()?,
    })
}

/// What follows the peer in the body of any kind but a set-up.
fn decode_call(kind: u8, peer: PeerId, body: &mut Fields<'_>) -> Option<Record> {
    Some(match kind {
        0x01 => Record::Connect { peer },
        0x02 => Record::Disconnect { peer },
        0x03 => Record::Reset { peer },
        0x04 => Record::ConfigurationRead { peer, offset: body.two()?, width: body.one()? },
        0x05 => Record::ConfigurationWrite { peer, offset: body.two()?, width: body.one()?, value: body.four()? },
        0x06 => Record::RegisterRead { peer, offset: body.two()? },
        0x07 => Record::RegisterWrite { peer, offset: body.two()?, value: body.four()? },
        0x08 => Record::MsixRead { peer, offset: body.two()? },
        0x09 => Record::MsixWrite { peer, offset: body.two()?, value: body.four()? },
        0x0a => Record::Load { peer, offset: body.four()? },
        0x0b => Record::Store { peer, offset: body.four()?, byte: body.one()? },
        _ => return None,
    })
}

/// Little-endian numbers, taken from the front.
pub(crate) struct Fields<'a>(pub &'a [u8]);

impl Fields<'_> {
    fn take<const N: usize>(&mut self) -> Option<[u8; N]> {
        let (bytes, rest) = self.0.split_first_chunk()?;
        self.0 = rest;
        Some(*bytes)
    }

    pub fn one(&mut self) -> Option<u8> {
        self.take().map(u8::from_le_bytes)
    }

    pub fn two(&mut self) -> Option<u16> {
        self.take().map(u16::from_le_bytes)
    }

    pub fn four(&mut self) -> Option<u32> {
        self.take().map(u32::from_le_bytes)
    }

    pub fn eight(&mut self) -> Option<u64> {
        self.take().map(u64::from_le_bytes)
    }
}
