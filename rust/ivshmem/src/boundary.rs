//! The C boundary: the types of `ivshmem.h`, its functions, and a form of each over slices.
//!
//! A slice's pointer is never null, is aligned and points to as many elements as its length says, also when it is empty; and
//! Rust's borrows keep the parts lent to one call from overlapping. That is all the library asks for, so every function over
//! slices is safe for hubs, regions, tables and buffers of any length and content. Those that are lent the region have a second
//! form over a raw pointer, for a region that guests change at the same time.

use core::mem::{align_of, offset_of, size_of};

use crate::{INTERFACE, MAX_HUB_WORDS, PeerId, Settings, Vector, hub_words};

/// An answer: 0 or the refusal's number, and the value read (0 where nothing is read, and for a refusal). The 0 of a refused
/// read is not for a guest, which must see all ones.
#[must_use]
#[repr(C)]
#[derive(Clone, Copy, Debug, Default, PartialEq, Eq, Hash)]
pub struct Reply {
    /// 0, or why the call was refused.
    pub number: u32,
    /// The value read.
    pub value: u32,
}

/// An interrupt for the host to inject: MSI-X vector `vector` of peer `target`, with its message address and data. It has no
/// padding, so that all of its 16 bytes may be handed on.
#[repr(C)]
#[derive(Clone, Copy, Debug, Default, PartialEq, Eq, Hash)]
pub struct Delivery {
    /// The message address that the guest put into the vector's MSI-X entry.
    pub address: u64,
    /// The message data of the same entry.
    pub data: u32,
    /// The peer that is interrupted.
    pub target: PeerId,
    /// The vector that was rung.
    pub vector: Vector,
}

/// An answer, and the number of records written to the delivery table. No guest may learn the count.
#[must_use]
#[repr(C)]
#[derive(Clone, Copy, Debug, Default, PartialEq, Eq, Hash)]
pub struct Counted {
    /// The answer.
    pub reply: Reply,
    /// How many records were written, from the front of the table.
    pub count: usize,
}

/// The answer to the section question.
#[must_use]
#[repr(C)]
#[derive(Clone, Copy, Debug, Default, PartialEq, Eq, Hash)]
pub struct SectionReply {
    /// The answer.
    pub reply: Reply,
    /// 0 no section, 1 State Table, 2 read/write, 3 output.
    pub kind: u32,
    /// The owner of an output section, otherwise 0.
    pub owner: u32,
    /// 1 if the asking peer may store there, otherwise 0.
    pub store: u32,
}

const _: () = {
    assert!(INTERFACE == 2, "the number in the name of the guard below");
    assert!(hub_words(4, 4) == 106 && MAX_HUB_WORDS == 4618);
    assert!(size_of::<usize>() == 8, "the library is built for 64-bit machines");
    assert!(size_of::<PeerId>() == 2 && size_of::<Vector>() == 2);

    assert!(size_of::<Settings>() == 56 && align_of::<Settings>() == 8);
    assert!(offset_of!(Settings, peers) == 0 && offset_of!(Settings, vectors) == 8);
    assert!(offset_of!(Settings, state_table) == 16 && offset_of!(Settings, read_write) == 24);
    assert!(offset_of!(Settings, output) == 32 && offset_of!(Settings, base) == 40);
    assert!(offset_of!(Settings, protocol) == 48 && offset_of!(Settings, subsystem_vendor) == 50);
    assert!(offset_of!(Settings, subsystem_id) == 52);

    assert!(size_of::<Reply>() == 8 && align_of::<Reply>() == 4);
    assert!(offset_of!(Reply, number) == 0 && offset_of!(Reply, value) == 4);

    assert!(size_of::<Delivery>() == 16 && align_of::<Delivery>() == 8);
    assert!(offset_of!(Delivery, address) == 0 && offset_of!(Delivery, data) == 8);
    assert!(offset_of!(Delivery, target) == 12 && offset_of!(Delivery, vector) == 14);

    assert!(size_of::<Counted>() == 16 && align_of::<Counted>() == 8);
    assert!(offset_of!(Counted, reply) == 0 && offset_of!(Counted, count) == 8);

    assert!(size_of::<SectionReply>() == 20 && align_of::<SectionReply>() == 4);
    assert!(offset_of!(SectionReply, reply) == 0 && offset_of!(SectionReply, kind) == 8);
    assert!(offset_of!(SectionReply, owner) == 12 && offset_of!(SectionReply, store) == 16);
};

// Whatever is linked with this crate asks for the archive's interface by its name: with another one it does not link.
#[used]
static INTERFACE_WANTED: unsafe extern "C" fn() -> u32 = ivshmem_interface_2;

#[rustfmt::skip]
unsafe extern "C" {
    fn ivshmem_interface_2() -> u32;
    fn ivshmem_set_up_hub(hub: *mut u32, hub_words: usize, region: *mut u8, region_bytes: usize, settings: Settings) -> Reply;
    fn ivshmem_is_sound(hub: *const u32, hub_words: usize) -> u32;
    fn ivshmem_is_connected(hub: *const u32, hub_words: usize, id: u64) -> Reply;
    fn ivshmem_connect(hub: *mut u32, hub_words: usize, id: u64) -> Reply;
    fn ivshmem_disconnect(hub: *mut u32, hub_words: usize, region: *mut u8, region_bytes: usize,
                          deliveries: *mut Delivery, records: usize, id: u64) -> Counted;
    fn ivshmem_reset(hub: *mut u32, hub_words: usize, region: *mut u8, region_bytes: usize,
                     deliveries: *mut Delivery, records: usize, id: u64) -> Counted;
    fn ivshmem_configuration_read(hub: *const u32, hub_words: usize, id: u64, offset: u64, width: u64) -> Reply;
    fn ivshmem_configuration_write(hub: *mut u32, hub_words: usize, id: u64, offset: u64, width: u64, value: u32) -> Reply;
    fn ivshmem_register_read(hub: *const u32, hub_words: usize, id: u64, offset: u64, width: u64) -> Reply;
    fn ivshmem_register_write(hub: *mut u32, hub_words: usize, region: *mut u8, region_bytes: usize,
                              deliveries: *mut Delivery, records: usize, id: u64, offset: u64, width: u64,
                              value: u32) -> Counted;
    fn ivshmem_msix_read(hub: *const u32, hub_words: usize, id: u64, offset: u64, width: u64) -> Reply;
    fn ivshmem_msix_write(hub: *mut u32, hub_words: usize, id: u64, offset: u64, width: u64, value: u32) -> Reply;
    fn ivshmem_section_question(hub: *const u32, hub_words: usize, id: u64, offset: u64, length: u64) -> SectionReply;
    fn ivshmem_load(hub: *const u32, hub_words: usize, region: *const u8, region_bytes: usize, id: u64, offset: u64,
                    buffer: *mut u8, length: usize) -> Reply;
    fn ivshmem_store(hub: *const u32, hub_words: usize, region: *mut u8, region_bytes: usize, id: u64, offset: u64,
                     bytes: *const u8, length: usize) -> Reply;
}

/// Makes `hub` a hub with nobody connected and the whole region zero.
///
/// Refused with 1; then with 10 where `hub` has not just the words that the settings ask for
/// ([`hub_words`](crate::hub_words)); then with 2. Each of these leaves all words of `hub` zero, and the region as it was.
pub fn set_up(hub: &mut [u32], region: &mut [u8], settings: &Settings) -> Reply {
    // SAFETY: the region is a slice, lent for the whole call, exclusively.
    unsafe { set_up_at(hub, region, settings) }
}

/// [`set_up`] of a region that others may reach. It writes every byte of the region where it is accepted, and none where it is
/// refused.
///
/// # Safety
/// The region's pointer is not null, also where its length is 0, and so many bytes behind it can be read and written by this
/// program while the call runs. No Rust reference to any of them is in use then, those lent to this call among them. Guests, and
/// other calls, may read and change the bytes at the same time: the call's answer does not rest on them, and what they hold
/// afterwards is then not determined.
pub unsafe fn set_up_at(hub: &mut [u32], region: *mut [u8], settings: &Settings) -> Reply {
    // SAFETY: the hub is lent for the whole call, exclusively; the caller answers for the region.
    unsafe { ivshmem_set_up_hub(hub.as_mut_ptr(), hub.len(), region.cast(), region.len(), *settings) }
}

/// 1 where `hub` is a sound hub, that is where no call but set-up, which overwrites it, would refuse it with 10; else 0.
#[must_use]
pub fn is_sound(hub: &[u32]) -> u32 {
    // SAFETY: the slice is lent for the whole call and only read.
    unsafe { ivshmem_is_sound(hub.as_ptr(), hub.len()) }
}

/// Value 1 where the peer is connected, else 0. Refused with 10 or 3.
pub fn is_connected(hub: &[u32], id: u64) -> Reply {
    // SAFETY: the slice is lent for the whole call and only read.
    unsafe { ivshmem_is_connected(hub.as_ptr(), hub.len(), id) }
}

/// The peer joins, with all registers at their reset values; nobody is rung. Refused with 10, 3 or 5.
pub fn connect(hub: &mut [u32], id: u64) -> Reply {
    // SAFETY: the slice is lent for the whole call, exclusively.
    unsafe { ivshmem_connect(hub.as_mut_ptr(), hub.len(), id) }
}

/// The peer leaves; if its State was not 0, vector 0 is rung at every other peer. Refused with 10, 2, 11, 3 or 4.
pub fn disconnect(hub: &mut [u32], region: &mut [u8], table: &mut [Delivery], id: u64) -> Counted {
    // SAFETY: the region is a slice, lent for the whole call, exclusively.
    unsafe { disconnect_at(hub, region, table, id) }
}

/// [`disconnect`] with a region that others may reach. Of the region it touches the four bytes from 4 * id on, and writes them;
/// where it is refused, none. Today's archive writes them by one store of 32 bits, which is an aligned one where the region is
/// aligned to four bytes; that is how it is compiled, and no part of what is proved.
///
/// # Safety
/// As for [`set_up_at`].
pub unsafe fn disconnect_at(hub: &mut [u32], region: *mut [u8], table: &mut [Delivery], id: u64) -> Counted {
    let (words, bytes, records) = (hub.len(), region.len(), table.len());
    // SAFETY: hub and table are lent for the whole call, exclusively, and any bits are a `Delivery`; the caller answers for the
    // region.
    unsafe { ivshmem_disconnect(hub.as_mut_ptr(), words, region.cast(), bytes, table.as_mut_ptr(), records, id) }
}

/// The peer's registers take their reset values; if its State was not 0, vector 0 is rung at every other peer. Refused with
/// 10, 2, 11, 3 or 4.
pub fn reset(hub: &mut [u32], region: &mut [u8], table: &mut [Delivery], id: u64) -> Counted {
    // SAFETY: as for `disconnect`.
    unsafe { reset_at(hub, region, table, id) }
}

/// [`reset`] with a region that others may reach. Of the region it touches what [`disconnect_at`] touches.
///
/// # Safety
/// As for [`set_up_at`].
pub unsafe fn reset_at(hub: &mut [u32], region: *mut [u8], table: &mut [Delivery], id: u64) -> Counted {
    let (words, bytes, records) = (hub.len(), region.len(), table.len());
    // SAFETY: as for `disconnect_at`.
    unsafe { ivshmem_reset(hub.as_mut_ptr(), words, region.cast(), bytes, table.as_mut_ptr(), records, id) }
}

/// Reads configuration space. Refused with 10, 3, 4, 6, 7 or 8.
pub fn configuration_read(hub: &[u32], id: u64, offset: u64, width: u64) -> Reply {
    // SAFETY: the slice is lent for the whole call and only read.
    unsafe { ivshmem_configuration_read(hub.as_ptr(), hub.len(), id, offset, width) }
}

/// Writes configuration space. Refused with 10, 3, 4, 6, 7 or 8.
pub fn configuration_write(hub: &mut [u32], id: u64, offset: u64, width: u64, value: u32) -> Reply {
    // SAFETY: the slice is lent for the whole call, exclusively.
    unsafe { ivshmem_configuration_write(hub.as_mut_ptr(), hub.len(), id, offset, width, value) }
}

/// Reads the register region. Refused with 10, 3, 4, 6, 7 or 8.
pub fn register_read(hub: &[u32], id: u64, offset: u64, width: u64) -> Reply {
    // SAFETY: the slice is lent for the whole call and only read.
    unsafe { ivshmem_register_read(hub.as_ptr(), hub.len(), id, offset, width) }
}

/// Writes the register region; a store to Doorbell rings, and one that changes State. Refused with 10, 2, 11, 3, 4, 6, 7 or 8.
pub fn register_write(
    hub: &mut [u32],
    region: &mut [u8],
    table: &mut [Delivery],
    id: u64,
    offset: u64,
    width: u64,
    value: u32,
) -> Counted {
    // SAFETY: as for `disconnect`.
    unsafe { register_write_at(hub, region, table, id, offset, width, value) }
}

/// [`register_write`] with a region that others may reach. Of the region it touches what [`disconnect_at`] touches where it
/// stores State, and nothing else.
///
/// # Safety
/// As for [`set_up_at`].
pub unsafe fn register_write_at(
    hub: &mut [u32],
    region: *mut [u8],
    table: &mut [Delivery],
    id: u64,
    offset: u64,
    width: u64,
    value: u32,
) -> Counted {
    // SAFETY: as for `disconnect_at`.
    unsafe {
        ivshmem_register_write(
            hub.as_mut_ptr(),
            hub.len(),
            region.cast(),
            region.len(),
            table.as_mut_ptr(),
            table.len(),
            id,
            offset,
            width,
            value,
        )
    }
}

/// Reads the MSI-X region. Refused with 10, 3, 4, 6, 7 or 8.
pub fn msix_read(hub: &[u32], id: u64, offset: u64, width: u64) -> Reply {
    // SAFETY: the slice is lent for the whole call and only read.
    unsafe { ivshmem_msix_read(hub.as_ptr(), hub.len(), id, offset, width) }
}

/// Writes the MSI-X region. Refused with 10, 3, 4, 6, 7 or 8.
pub fn msix_write(hub: &mut [u32], id: u64, offset: u64, width: u64, value: u32) -> Reply {
    // SAFETY: the slice is lent for the whole call, exclusively.
    unsafe { ivshmem_msix_write(hub.as_mut_ptr(), hub.len(), id, offset, width, value) }
}

/// Asks which section a shared range lies in and whether the peer may store to it. Refused with 10, 3, 4, 6 or 8.
pub fn section_question(hub: &[u32], id: u64, offset: u64, length: u64) -> SectionReply {
    // SAFETY: the slice is lent for the whole call and only read.
    unsafe { ivshmem_section_question(hub.as_ptr(), hub.len(), id, offset, length) }
}

/// Fills `buffer` with shared bytes. Refused with 10, 2, 3, 4, 6 or 8.
pub fn load(hub: &[u32], region: &[u8], id: u64, offset: u64, buffer: &mut [u8]) -> Reply {
    // SAFETY: the region is a slice, lent for the whole call, and only read.
    unsafe { load_at(hub, region, id, offset, buffer) }
}

/// [`load`] from a region that others may reach. Of the region it touches the bytes of its range, and only reads them; where it
/// is refused, none.
///
/// # Safety
/// As for [`set_up_at`], but that the bytes need not be writable, and that shared references to bytes that nobody changes may be
/// in use. What it gives of bytes that are changed at the same time is not determined; its number and all other bytes are.
pub unsafe fn load_at(hub: &[u32], region: *const [u8], id: u64, offset: u64, buffer: &mut [u8]) -> Reply {
    let (words, bytes, length) = (hub.len(), region.len(), buffer.len());
    // SAFETY: the hub is lent for the whole call and only read, the buffer exclusively; the caller answers for the region.
    unsafe { ivshmem_load(hub.as_ptr(), words, region.cast(), bytes, id, offset, buffer.as_mut_ptr(), length) }
}

/// Stores bytes to the read/write section or to the peer's own output section. Refused with 10, 2, 3, 4, 6, 8 or 9.
pub fn store(hub: &[u32], region: &mut [u8], id: u64, offset: u64, bytes: &[u8]) -> Reply {
    // SAFETY: the region is a slice, lent for the whole call, exclusively.
    unsafe { store_at(hub, region, id, offset, bytes) }
}

/// [`store`] to a region that others may reach. Of the region it touches the bytes of its range, and writes them; where it is
/// refused, none.
///
/// # Safety
/// As for [`set_up_at`].
pub unsafe fn store_at(hub: &[u32], region: *mut [u8], id: u64, offset: u64, bytes: &[u8]) -> Reply {
    let (words, length) = (hub.len(), bytes.len());
    // SAFETY: hub and bytes are lent for the whole call and only read; the caller answers for the region.
    unsafe { ivshmem_store(hub.as_ptr(), words, region.cast(), region.len(), id, offset, bytes.as_ptr(), length) }
}
