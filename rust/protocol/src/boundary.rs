//! The C boundary: the types of `ivshmem_protocol.h`, its calls, and a form of each over slices.
//!
//! A slice's pointer is never null and points to as many bytes as its length says, also when it is empty; and Rust's borrows keep
//! the counts and the input from overlapping. That is all the library asks for, so the calls over slices are safe for any numbers
//! and for buffers of any length and content.

use core::mem::{align_of, offset_of, size_of};

use crate::{BUFFER_BYTES, HELD_BYTES, IDS, INTERFACE, MAX_SENT, MAX_VECTORS, RECORD_BYTES, SENT_BYTES};

/// How far a reader is. It goes into each call and comes back changed; at the start all of it is 0. It has no padding, so that
/// all of its 24 bytes may be stored.
#[repr(C)]
#[derive(Clone, Copy, Debug, Default, PartialEq, Eq, Hash)]
pub struct Progress {
    /// What is due: 0 the version, 1 the own id, 2 the memory, 3 peers; 4 closed.
    pub due: u32,
    /// The own id; 0 before it is known.
    pub own: u32,
    /// How many bytes of a record are held.
    pub held: usize,
    /// The held bytes, from the front.
    pub bytes: [u8; HELD_BYTES],
}

/// What a call answers. Where the number is not 0, the call is refused: the rest is 0, and the progress record is as it went in.
#[must_use]
#[repr(C)]
#[derive(Clone, Copy, Debug, Default, PartialEq, Eq, Hash)]
pub struct Answer {
    /// 0, or why the call was refused.
    pub number: u32,
    /// 0 more, 1 version, 2 id, 3 memory, 4 vector, 5 extra, 6 disconnected, 7 closed.
    pub message: u32,
    /// The id that the message names, otherwise 0.
    pub id: u32,
    /// How many vectors the peer has now, of a vector and of an extra one; otherwise 0.
    pub count: u32,
    /// How many bytes of this call's input were taken.
    pub taken: usize,
    /// The progress afterwards.
    pub progress: Progress,
}

/// What a server knows. It goes into each call and comes back changed; [`start`] makes the first. It has no padding, so that all
/// of its 16 bytes may be stored.
#[repr(C)]
#[derive(Clone, Copy, Debug, Default, PartialEq, Eq, Hash)]
pub struct Server {
    /// Who is joined: bit `id` is 1 where the id is. Any number may stand here.
    pub joined: u64,
    /// How many vectors every client has, 1 to 16. All calls refuse any other number, also that of an all-zero state.
    pub vectors: u64,
}

/// What a start answers. Where the number is not 0, it is refused, and the state is all zero.
#[must_use]
#[repr(C)]
#[derive(Clone, Copy, Debug, Default, PartialEq, Eq, Hash)]
pub struct Started {
    /// 0, or why the start was refused.
    pub number: u32,
    /// The state of a server that nobody has joined.
    pub server: Server,
}

/// What a join or a leave answers. Where the number is not 0, the call is refused: id and messages are 0, and the state is as it
/// went in.
#[must_use]
#[repr(C)]
#[derive(Clone, Copy, Debug, Default, PartialEq, Eq, Hash)]
pub struct Served {
    /// 0, or why the call was refused.
    pub number: u32,
    /// The id that has joined or left.
    pub id: u32,
    /// How many messages stand at the front of the buffer, ten bytes each.
    pub messages: usize,
    /// The state afterwards.
    pub server: Server,
}

const _: () = {
    assert!(INTERFACE == 1, "the number in the name of the guard below");
    assert!(IDS == 64 && MAX_VECTORS == 16 && RECORD_BYTES == 9 && HELD_BYTES + 1 == RECORD_BYTES);
    assert!(SENT_BYTES == 1 + RECORD_BYTES && BUFFER_BYTES == SENT_BYTES * MAX_SENT);
    assert!(MAX_SENT == 3 + (IDS + IDS - 1) * MAX_VECTORS as usize, "the last of all joins, with all vectors");
    assert!(size_of::<usize>() == 8, "the library is built for 64-bit machines");

    assert!(size_of::<Progress>() == 24 && align_of::<Progress>() == 8);
    assert!(offset_of!(Progress, due) == 0 && offset_of!(Progress, own) == 4);
    assert!(offset_of!(Progress, held) == 8 && offset_of!(Progress, bytes) == 16);

    assert!(size_of::<Answer>() == 48 && align_of::<Answer>() == 8);
    assert!(offset_of!(Answer, number) == 0 && offset_of!(Answer, message) == 4);
    assert!(offset_of!(Answer, id) == 8 && offset_of!(Answer, count) == 12);
    assert!(offset_of!(Answer, taken) == 16 && offset_of!(Answer, progress) == 24);

    assert!(size_of::<Server>() == 16 && align_of::<Server>() == 8);
    assert!(offset_of!(Server, joined) == 0 && offset_of!(Server, vectors) == 8);

    assert!(size_of::<Started>() == 24 && align_of::<Started>() == 8);
    assert!(offset_of!(Started, number) == 0 && offset_of!(Started, server) == 8);

    assert!(size_of::<Served>() == 32 && align_of::<Served>() == 8);
    assert!(offset_of!(Served, number) == 0 && offset_of!(Served, id) == 4);
    assert!(offset_of!(Served, messages) == 8 && offset_of!(Served, server) == 16);
};

// Whatever is linked with this crate asks for the archive's interface by its name: with another one it does not link.
#[used]
static INTERFACE_WANTED: unsafe extern "C" fn() -> u32 = ivshmem_protocol_interface_1;

#[rustfmt::skip]
unsafe extern "C" {
    fn ivshmem_protocol_interface_1() -> u32;
    fn ivshmem_protocol_read(progress: Progress, counts: *mut u8, counts_length: usize, vectors: u64,
                             input: *const u8, input_length: usize) -> Answer;
    fn ivshmem_protocol_start(vectors: u64) -> Started;
    fn ivshmem_protocol_join(server: Server, buffer: *mut u8, buffer_length: usize) -> Served;
    fn ivshmem_protocol_leave(server: Server, id: u64, buffer: *mut u8, buffer_length: usize) -> Served;
}

/// Takes the input's bytes through the end of the first whole record, with those that are held in front of them, and answers
/// that record's message. Where they are no whole record, it holds all of them and answers message 0.
///
/// Refused with 1 where `vectors` is not 1 to 16; then with 2 where there are not 64 counts; then with 10 where the progress
/// record and the counts are none that a reader can have. A refused call changes nothing.
pub fn read(progress: Progress, counts: &mut [u8], vectors: u64, input: &[u8]) -> Answer {
    let (length, input_length) = (counts.len(), input.len());
    // SAFETY: the counts are lent for the whole call, exclusively; the input is lent for the whole call and only read.
    unsafe { ivshmem_protocol_read(progress, counts.as_mut_ptr(), length, vectors, input.as_ptr(), input_length) }
}

/// The state of a server that nobody has joined, whose clients have so many vectors each.
///
/// Refused with 1 where `vectors` is not 1 to 16.
pub fn start(vectors: u64) -> Started {
    // SAFETY: nothing is lent.
    unsafe { ivshmem_protocol_start(vectors) }
}

/// A client joins, and gets the lowest id that is free. The messages to be sent are written to the front of the buffer, each as a
/// byte with the id of the client that it goes to and a record: first those to the new client, then those to the others, by
/// their ids. The bytes behind them stay.
///
/// Refused with 10 where the state's `vectors` is not 1 to 16; then with 11 where the buffer has fewer than 20350 bytes; then with
/// 12 where all 64 ids are joined. A refused call changes nothing.
pub fn join(server: Server, buffer: &mut [u8]) -> Served {
    let length = buffer.len();
    // SAFETY: the buffer is lent for the whole call, exclusively.
    unsafe { ivshmem_protocol_join(server, buffer.as_mut_ptr(), length) }
}

/// The client with this id leaves. The messages to be sent are written to the front of the buffer as [`join`] does it: one to each
/// client that is still joined, by their ids. The bytes behind them stay.
///
/// Refused with 10 and 11 as a join is; then with 4 where the id is not joined, as none above 63 is. A refused call changes
/// nothing.
pub fn leave(server: Server, id: u64, buffer: &mut [u8]) -> Served {
    let length = buffer.len();
    // SAFETY: the buffer is lent for the whole call, exclusively.
    unsafe { ivshmem_protocol_leave(server, id, buffer.as_mut_ptr(), length) }
}
