//! A verified ivshmem v2 hub.
//!
//! The hub joins 2 to 64 guests, each through an ivshmem v2 PCI device: a shared region in sections, a doorbell, a state word
//! for every peer, and MSI-X interrupts. The device model is proved and linked as a static library; this crate makes it safe
//! to call. It keeps no state of its own, allocates nothing, and needs no standard library: its user lends a hub's words, as
//! many as the set-up asks for ([`hub_words`]).
//!
//! The hypervisor traps a guest's accesses to the device's three spaces. [`trap`] takes them as they come, of any length and at
//! any offset, and gives the guest what it has to see. Below it stands one method for each call of the library: configuration
//! space goes to [`Hub::configuration_read`] and [`Hub::configuration_write`], BAR 0 to [`Hub::register_read`] and
//! [`Hub::register_write`], BAR 1 to [`Hub::msix_read`] and [`Hub::msix_write`]. What a guest may map is what
//! [`Hub::section_question`] says; accesses that are not mapped go through [`Hub::load`] and [`Hub::store`]. Interrupts come back
//! as [`Delivery`] records for the hypervisor to inject.
//!
//! # What a host has to know
//!
//! - **Refused reads.** A refused read has no value. In [`raw::Reply`] the value beside the number is then 0, but a guest must
//!   see all ones, as of a device that does not answer. The methods of [`Hub`] give an `Err` in place of a value, and [`trap`]
//!   gives the guest its ones.
//! - **The region while guests run.** A slice over memory that a guest changes is undefined behaviour. The methods with `_at` in
//!   their name take a [`Region`] instead; those over slices are for a region that no guest has mapped.
//! - **Locks.** Methods that take `&self` may run at the same time; one that takes `&mut self` runs while no other on the same
//!   hub does. Methods on different hubs may run at once. [`Hub`] and [`Region`] are `Send` and `Sync`.
//! - **Interrupts.** They are injected in their order, all of them, before the next call on the same hub. No guest may learn
//!   their number. The compiler warns of an answer that is dropped, but not behind a `?`: `hub.reset(..)?;` drops its interrupts.
//!
//! # Example
//!
//! Two guests; the first rings vector 0 of the second.
//!
//! ```
//! use ivshmem::{Delivery, Hub, PeerId, Refusal, Settings, Vector, configuration, hub_words, msix, register};
//!
//! # fn main() -> Result<(), Refusal> {
//! let settings = Settings { peers: 2, vectors: 1, state_table: 4096, output: 4096, ..Settings::default() };
//! let mut words = [0; hub_words(2, 1)];
//! // No guest has this region mapped, so it may be a slice.
//! let mut region = vec![0; settings.total().ok_or(Refusal::BadSetting)?];
//! let mut table = [Delivery::default(); 2];
//! let mut hub = Hub::set_up(&mut words, &settings, &mut region)?;
//!
//! let (first, second) = (PeerId(0), PeerId(1));
//! for peer in [first, second] {
//!     hub.connect(peer)?;
//!     let on = configuration::COMMAND_MEMORY | configuration::COMMAND_BUS_MASTER;
//!     hub.configuration_write(peer, configuration::COMMAND, 2, on)?;
//! }
//!
//! // The second guest switches its interrupts on: MSI-X enable, the entry with its mask off, Interrupt Control.
//! hub.configuration_write(second, configuration::MESSAGE_CONTROL, 2, configuration::MESSAGE_ENABLE)?;
//! hub.msix_write(second, msix::ADDRESS_LOW, 4, 0xfee0_0000)?;
//! hub.msix_write(second, msix::DATA, 4, 0x41)?;
//! hub.msix_write(second, msix::CONTROL, 4, 0)?;
//! let delivered = hub.register_write(&mut region, &mut table, second, register::INTERRUPT_CONTROL, 4, 1)?;
//! assert!(delivered.is_empty());
//!
//! // The first guest rings; the host gets the interrupt to inject.
//! let doorbell = register::doorbell(second, Vector(0));
//! let delivered = hub.register_write(&mut region, &mut table, first, register::DOORBELL, 4, doorbell)?;
//! assert_eq!(delivered, [Delivery { address: 0xfee0_0000, data: 0x41, target: second, vector: Vector(0) }]);
//!
//! // A guest stores to its own output section, and not to the other's.
//! hub.store(&mut region, first, 4096, b"hello")?;
//! assert_eq!(hub.store(&mut region, second, 4096, b"hello"), Err(Refusal::ReadOnly));
//! # Ok(())
//! # }
//! ```

#![no_std]
#![deny(unsafe_code)]
#![deny(missing_docs)]

#[allow(unsafe_code)]
mod boundary;
mod hub;
mod places;
mod refusal;
#[allow(unsafe_code)]
mod region;
pub mod trap;
mod types;

pub use boundary::Delivery;
pub use hub::Hub;
pub use places::{configuration, msix, register};
pub use refusal::Refusal;
pub use region::Region;
pub use types::{PeerId, Placement, Section, Settings, Vector};

/// The version of this crate, which is that of the header and of the library.
pub const VERSION: &str = env!("CARGO_PKG_VERSION");
/// The number of the library's interface. An archive of another interface does not link.
pub const INTERFACE: u32 = 2;
/// The most peers that a hub can be set up with.
pub const MAX_PEERS: usize = 64;
/// The most vectors that a peer can have.
pub const MAX_VECTORS: usize = 16;
/// The lowest guest physical address of a region: 1 MiB. Below it is low memory, where firmware stands.
pub const MIN_BASE: u64 = 0x10_0000;
/// The words of the largest hub.
pub const MAX_HUB_WORDS: usize = hub_words(MAX_PEERS, MAX_VECTORS);
/// The longest region, 1 GiB.
pub const MAX_REGION_BYTES: usize = 0x4000_0000;
/// Bytes of a peer's configuration space.
pub const CONFIGURATION_BYTES: u64 = 256;
/// Bytes of a peer's register region, BAR 0.
pub const REGISTER_BYTES: u64 = 4096;
/// Bytes of a peer's MSI-X region, BAR 1.
pub const MSIX_BYTES: u64 = 4096;

/// How many words a hub of so many peers and vectors has: no more and no fewer are taken. It answers any numbers, also such as
/// set-up refuses; where the sum does not fit, with the largest `usize`.
#[must_use]
pub const fn hub_words(peers: usize, vectors: usize) -> usize {
    let registers = peers.saturating_mul(8);
    let entries = peers.saturating_mul(vectors).saturating_mul(4);
    registers.saturating_add(entries).saturating_add(10)
}

/// The C calls over slices of any length, with their plain answers.
///
/// [`Hub`] is built on these. They take an id as the library does, in 64 bits, and a hub, region or table of a wrong length is
/// refused like any other wrong argument.
///
/// Those that are lent the region have two forms: over a slice, for a region that no guest has mapped, and with `_at`, unsafe,
/// over a raw pointer, for one that guests change at the same time. [`Region`] is the safe way to the latter.
pub mod raw {
    pub use crate::boundary::{
        Counted, Delivery, Reply, SectionReply, configuration_read, configuration_write, connect, disconnect,
        disconnect_at, is_connected, is_sound, load, load_at, msix_read, msix_write, register_read, register_write,
        register_write_at, reset, reset_at, section_question, set_up, set_up_at, store, store_at,
    };
}
