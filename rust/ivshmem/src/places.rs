//! Places in a peer's three spaces, and bits, under the names of `ivshmem.h`.

/// Offsets in configuration space, and bits of Command, Privileged Control and Message Control.
pub mod configuration {
    /// Vendor id.
    pub const VENDOR_ID: u64 = 0x00;
    /// Device id.
    pub const DEVICE_ID: u64 = 0x02;
    /// Command.
    pub const COMMAND: u64 = 0x04;
    /// Status.
    pub const STATUS: u64 = 0x06;
    /// Revision.
    pub const REVISION: u64 = 0x08;
    /// Protocol type.
    pub const PROTOCOL: u64 = 0x09;
    /// Class.
    pub const CLASS: u64 = 0x0b;
    /// BAR 0: where the register region stands.
    pub const BAR0: u64 = 0x10;
    /// BAR 1: where the MSI-X region stands.
    pub const BAR1: u64 = 0x14;
    /// PCI subsystem vendor id.
    pub const SUBSYSTEM_VENDOR: u64 = 0x2c;
    /// PCI subsystem id.
    pub const SUBSYSTEM_ID: u64 = 0x2e;
    /// Where the list of capabilities begins.
    pub const CAPABILITIES: u64 = 0x34;
    /// The vendor-specific capability.
    pub const VENDOR_CAPABILITY: u64 = 0x40;
    /// Privileged Control.
    pub const PRIVILEGED_CONTROL: u64 = 0x43;
    /// Size of the State Table.
    pub const STATE_TABLE_SIZE: u64 = 0x44;
    /// Size of the read/write section.
    pub const READ_WRITE_SIZE: u64 = 0x48;
    /// Size of each output section.
    pub const OUTPUT_SIZE: u64 = 0x50;
    /// The region's guest physical address.
    pub const BASE_ADDRESS: u64 = 0x58;
    /// The MSI-X capability.
    pub const MSIX_CAPABILITY: u64 = 0x60;
    /// Message Control.
    pub const MESSAGE_CONTROL: u64 = 0x62;
    /// Where the MSI-X table stands.
    pub const MSIX_TABLE: u64 = 0x64;
    /// Where the pending bits stand.
    pub const MSIX_PENDING: u64 = 0x68;

    /// A bit of Command: BAR 0 and BAR 1 answer.
    pub const COMMAND_MEMORY: u32 = 0x0002;
    /// A bit of Command: interrupts may be sent.
    pub const COMMAND_BUS_MASTER: u32 = 0x0004;
    /// A bit of Privileged Control: an interrupt clears Interrupt Control.
    pub const PRIVILEGED_ONE_SHOT: u32 = 0x01;
    /// A bit of Message Control: every vector is masked.
    pub const MESSAGE_FUNCTION_MASK: u32 = 0x4000;
    /// A bit of Message Control: MSI-X is on.
    pub const MESSAGE_ENABLE: u32 = 0x8000;
}

/// Offsets in the register region, BAR 0.
pub mod register {
    use crate::{PeerId, Vector};

    /// The peer's id.
    pub const ID: u64 = 0x00;
    /// How many peers there are.
    pub const MAXIMUM_PEERS: u64 = 0x04;
    /// Interrupt Control; bit 0 lets interrupts through.
    pub const INTERRUPT_CONTROL: u64 = 0x08;
    /// Doorbell; a store rings a peer.
    pub const DOORBELL: u64 = 0x0c;
    /// The peer's state word; a store that changes it rings vector 0 of every other peer.
    pub const STATE: u64 = 0x10;

    /// The value to store to the Doorbell to ring a peer's vector. Both numbers have their 16 bits there, so none is cut.
    #[must_use]
    pub const fn doorbell(target: PeerId, vector: Vector) -> u32 {
        (target.0 as u32) << 16 | vector.0 as u32
    }
}

/// Offsets in the MSI-X region, BAR 1, of the words of entry 0; entry v stands [`ENTRY_BYTES`](msix::ENTRY_BYTES) * v bytes
/// further.
pub mod msix {
    /// Message address, low word.
    pub const ADDRESS_LOW: u64 = 0x0;
    /// Message address, high word.
    pub const ADDRESS_HIGH: u64 = 0x4;
    /// Message data.
    pub const DATA: u64 = 0x8;
    /// Vector control; bit 0 masks the entry.
    pub const CONTROL: u64 = 0xc;
    /// How far apart the entries stand.
    pub const ENTRY_BYTES: u64 = 0x10;
    /// The pending bits, all 0.
    pub const PENDING: u64 = 0x800;
}
