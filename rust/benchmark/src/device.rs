//! The library and the yardsticks behind one trait, and a device that does nothing.

use std::marker::PhantomData;

use ivshmem::{Delivery, raw};
use model::call::Call;
use model::subject::{Answer, Lent, Subject};

use crate::state::Form;

/// The memory lent to a call beside the hub. A store's bytes stand in the buffer.
pub struct Lending<'a> {
    pub region: &'a mut [u8],
    pub table: &'a mut [Delivery],
    pub buffer: &'a mut [u8],
}

/// Something that answers the calls; each means what `ivshmem.h` says.
pub trait Device {
    /// The form in which it is lent the hub.
    type Hub: Form + ?Sized;

    /// Makes the call.
    fn perform(hub: &mut Self::Hub, call: &Call, lent: Lending<'_>) -> Answer;
}

/// Makes a call by the functions of `$device`, which have the names and the arguments of those in [`ivshmem::raw`].
macro_rules! perform_by {
    ($device:ident, $hub:expr, $call:expr, $lent:expr) => {{
        let (hub, $crate::device::Lending { region, table, buffer }) = ($hub, $lent);
        match *$call {
            Call::SetUp(ref settings) => $device::set_up(hub, region, settings).into(),
            Call::Connect { id } => $device::connect(hub, id).into(),
            Call::Disconnect { id } => $device::disconnect(hub, region, table, id).into(),
            Call::Reset { id } => $device::reset(hub, region, table, id).into(),
            Call::ConfigurationRead { id, offset, width } => $device::configuration_read(hub, id, offset, width).into(),
            Call::ConfigurationWrite { id, offset, width, value } => {
                $device::configuration_write(hub, id, offset, width, value).into()
            }
            Call::RegisterRead { id, offset, width } => $device::register_read(hub, id, offset, width).into(),
            Call::RegisterWrite { id, offset, width, value } => {
                $device::register_write(hub, region, table, id, offset, width, value).into()
            }
            Call::MsixRead { id, offset, width } => $device::msix_read(hub, id, offset, width).into(),
            Call::MsixWrite { id, offset, width, value } => $device::msix_write(hub, id, offset, width, value).into(),
            Call::Section { id, offset, length } => {
                let answer = $device::section_question(hub, id, offset, length);
                Answer { kind: answer.kind, owner: answer.owner, store: answer.store, ..answer.reply.into() }
            }
            Call::Load { id, offset, .. } => $device::load(hub, region, id, offset, buffer).into(),
            Call::Store { id, offset, .. } => $device::store(hub, region, id, offset, buffer).into(),
        }
    }};
}
pub(crate) use perform_by;

/// The linked library.
pub struct Library;

impl Device for Library {
    type Hub = [u32];

    fn perform(hub: &mut [u32], call: &Call, lent: Lending<'_>) -> Answer {
        perform_by!(raw, hub, call, lent)
    }
}

/// The library, but for a register write that does nothing: its time is that of the harness and of the call.
pub struct Nothing;

impl Device for Nothing {
    type Hub = [u32];

    fn perform(hub: &mut [u32], call: &Call, lent: Lending<'_>) -> Answer {
        perform_by!(empty, hub, call, lent)
    }
}

mod empty {
    use std::hint::black_box;

    use ivshmem::Delivery;
    pub use ivshmem::raw::*;

    type Function = extern "C" fn(*mut u32, usize, *mut u8, usize, *mut Delivery, usize, u64, u64, u64, u32) -> Counted;

    #[rustfmt::skip]
    extern "C" fn nothing(_: *mut u32, _: usize, _: *mut u8, _: usize, _: *mut Delivery, _: usize,
                          _: u64, _: u64, _: u64, _: u32) -> Counted {
        Counted::default()
    }

    pub fn register_write(
        hub: &mut [u32],
        region: &mut [u8],
        table: &mut [Delivery],
        id: u64,
        offset: u64,
        width: u64,
        value: u32,
    ) -> Counted {
        let (words, bytes, records) = (hub.len(), region.len(), table.len());
        let (hub, region, table) = (hub.as_mut_ptr(), region.as_mut_ptr(), table.as_mut_ptr());
        // Called through a pointer, so that the compiler does not see that it does nothing.
        black_box(nothing as Function)(hub, words, region, bytes, table, records, id, offset, width, value)
    }
}

/// A device as a subject of the differential harness.
pub struct Compared<D>(PhantomData<D>);

impl<D> Default for Compared<D> {
    fn default() -> Compared<D> {
        Compared(PhantomData)
    }
}

impl<D: Device> Subject for Compared<D> {
    fn perform(&mut self, call: &Call, lent: Lent<'_>) -> Answer {
        let Lent { words, region, table, buffer } = lent;
        D::Hub::lend(words, call, |hub| D::perform(hub, call, Lending { region, table, buffer }))
    }
}
