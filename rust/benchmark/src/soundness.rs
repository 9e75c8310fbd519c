//! Check 10 in three forms: with an early exit at the first fault, with all faults gathered, and the same with a copy of the
//! loops for each number of vectors.

use crate::rules::{ADDRESS_BITS, BAR_BITS, COMMAND_BITS, Entry, MESSAGE_BITS, Registers, accepted};
use crate::state::{PEER_WORDS, Parts, Plain, State};

/// A test of a whole hub.
pub trait Soundness<S: ?Sized> {
    fn sound(hub: &S) -> bool;
}

/// The first fault ends the test.
pub struct EarlyExit;

impl Soundness<Plain> for EarlyExit {
    fn sound(hub: &Plain) -> bool {
        let numbers = &hub.numbers;
        accepted(numbers)
            && hub.peers.len() as u64 == numbers.peers
            && hub.peers.iter().all(|peer| {
                peer.entries.len() as u64 == numbers.vectors
                    && if peer.registers.connected == 1 {
                        fixed_bits(&peer.registers) && peer.entries.iter().all(|e| entry_bits(e.low, e.control))
                    } else {
                        peer.registers == Registers::default() && peer.entries.iter().all(|e| *e == Entry::RESET)
                    }
            })
    }
}

impl Soundness<[u32]> for EarlyExit {
    fn sound(hub: &[u32]) -> bool {
        let numbers = hub.numbers();
        if !accepted(&numbers) || !hub.fits(&numbers) {
            return false;
        }
        let Parts { low, high, data, control, .. } = Parts::of(hub, &numbers);
        let own = |column| <[u32]>::chunks_exact(column, numbers.vectors as usize);
        let entries = own(low).zip(own(high)).zip(own(data)).zip(own(control));
        (0..).zip(entries).all(|(id, (((low, high), data), control))| {
            let registers = hub.registers(id);
            let joined = registers.connected == 1;
            (if joined { fixed_bits(&registers) } else { registers == Registers::default() })
                && low.iter().zip(high).zip(data).zip(control).all(|(((&low, &high), &data), &control)| {
                    if joined { entry_bits(low, control) } else { Entry { low, high, data, control } == Entry::RESET }
                })
        })
    }
}

fn fixed_bits(r: &Registers) -> bool {
    r.command & !COMMAND_BITS == 0
        && r.bar0 & !BAR_BITS == 0
        && r.bar1 & !BAR_BITS == 0
        && r.privileged <= 1
        && r.message & !MESSAGE_BITS == 0
        && r.interrupt <= 1
}

#[inline(always)]
fn entry_bits(low: u32, control: u32) -> bool {
    low & !ADDRESS_BITS | control & !1 == 0
}

/// The faults of all slots are gathered, without a branch on a peer. The compiler may make one of its own, and leave out words
/// that can hold anything; of the forms tried this was the fastest.
pub struct Accumulating;

/// The bits of a peer's words that must be 0 where the peer is connected.
const FIXED: [u32; PEER_WORDS] = [0, !COMMAND_BITS, !BAR_BITS, !BAR_BITS, !1, !MESSAGE_BITS, !1, 0];

impl Soundness<[u32]> for Accumulating {
    fn sound(hub: &[u32]) -> bool {
        let numbers = hub.numbers();
        if !accepted(&numbers) || !hub.fits(&numbers) {
            return false;
        }
        let parts = Parts::of(hub, &numbers);
        let own = |column| <[u32]>::chunks_exact(column, numbers.vectors as usize);
        let entries = own(parts.low).zip(own(parts.high)).zip(own(parts.data)).zip(own(parts.control));
        let slots = parts.rows.iter().zip(entries);
        slots.fold(0, |faults, (row, (((low, high), data), control))| {
            faults | slot_faults(row, low, high, data, control)
        }) == 0
    }
}

/// The same with a copy of the loops for each number of vectors, which the compiler then knows.
pub struct Specialised;

#[rustfmt::skip]
const FAULTS: [fn(&Parts<'_>) -> u32; 16] = [
    faults::<1>, faults::<2>, faults::<3>, faults::<4>, faults::<5>, faults::<6>, faults::<7>, faults::<8>,
    faults::<9>, faults::<10>, faults::<11>, faults::<12>, faults::<13>, faults::<14>, faults::<15>, faults::<16>,
];

impl Soundness<[u32]> for Specialised {
    fn sound(hub: &[u32]) -> bool {
        let numbers = hub.numbers();
        accepted(&numbers) && hub.fits(&numbers) && FAULTS[numbers.vectors as usize - 1](&Parts::of(hub, &numbers)) == 0
    }
}

fn faults<const VECTORS: usize>(parts: &Parts<'_>) -> u32 {
    let own = |column| <[u32]>::as_chunks::<VECTORS>(column).0;
    let (low, high, data, control) = (own(parts.low), own(parts.high), own(parts.data), own(parts.control));
    let mut faults = 0;
    for ((((row, low), high), data), control) in parts.rows.iter().zip(low).zip(high).zip(data).zip(control) {
        let away = every_bit(row[0] != 1);
        for k in 0..PEER_WORDS {
            faults |= row[k] & (FIXED[k] | away);
        }
        for v in 0..VECTORS {
            faults |= entry_faults(low[v], high[v], data[v], control[v], away);
        }
    }
    faults
}

fn slot_faults(row: &[u32; PEER_WORDS], low: &[u32], high: &[u32], data: &[u32], control: &[u32]) -> u32 {
    let away = every_bit(row[0] != 1);
    let registers = (0..PEER_WORDS).fold(0, |faults, k| faults | row[k] & (FIXED[k] | away));
    let entries = low.iter().zip(high).zip(data).zip(control);
    entries.fold(registers, |faults, (((&low, &high), &data), &control)| {
        faults | entry_faults(low, high, data, control, away)
    })
}

/// The bits of an entry that are not as they must be; `away` is all ones where the peer is not connected, so that every bit is
/// fixed.
#[inline(always)]
fn entry_faults(low: u32, high: u32, data: u32, control: u32, away: u32) -> u32 {
    // The mask bit is 1 at reset.
    low & (!ADDRESS_BITS | away) | (high | data) & away | (control ^ 1) & (!1 | away)
}

fn every_bit(set: bool) -> u32 {
    u32::from(set).wrapping_neg()
}
