//! The calls in safe Rust, written once for every [`State`]. The compiler makes a copy for each yardstick.

use std::marker::PhantomData;

use ivshmem::raw::{Counted, Reply, SectionReply};
use ivshmem::{Delivery, Settings, register};

use model::call::Call;
use model::subject::Answer;

use crate::device::{Device, Lending, perform_by};
use crate::rules::{self, MEMORY_SPACE, Numbers, Registers, Section};
use crate::soundness::{Accumulating, EarlyExit, Soundness, Specialised};
use crate::state::{Form, Plain, State};

/// The calls over a hub of form `F`, with the soundness test `T`.
pub struct Yardstick<F: ?Sized, T>(PhantomData<(T, F)>);

/// An ordinary struct, as a Rust programmer would write it.
pub type PlainStruct = Yardstick<Plain, EarlyExit>;
/// The library's words, with an early exit at the first fault.
pub type WordsEarlyExit = Yardstick<[u32], EarlyExit>;
/// The library's words, with the faults gathered.
pub type WordsAccumulating = Yardstick<[u32], Accumulating>;
/// The same with a copy of the soundness test for each number of vectors: the fastest form found, and no straightforward one.
pub type WordsSpecialised = Yardstick<[u32], Specialised>;

/// The caller of an admitted call.
struct Caller {
    numbers: Numbers,
    id: usize,
    registers: Registers,
}

impl Caller {
    fn memory_space(&self) -> bool {
        self.registers.command & MEMORY_SPACE != 0
    }
}

/// Lengths of what the call is lent, where the rules look at them.
struct Lent {
    region: Option<usize>,
    records: Option<usize>,
}

impl Lent {
    const NOTHING: Lent = Lent { region: None, records: None };

    fn region(region: &[u8]) -> Lent {
        Lent { region: Some(region.len()), records: None }
    }

    fn both(region: &[u8], table: &[Delivery]) -> Lent {
        Lent { region: Some(region.len()), records: Some(table.len()) }
    }
}

impl<F: State + ?Sized, T: Soundness<F>> Yardstick<F, T> {
    /// Checks 10, 2, 11, 3 and 4. Inlined, since its answer is large.
    #[inline(always)]
    fn admit(hub: &F, lent: &Lent, id: u64) -> Result<Caller, u32> {
        if !T::sound(hub) {
            return Err(10);
        }
        let numbers = hub.numbers();
        if lent.region.is_some_and(|bytes| bytes as u64 != rules::total(&numbers)) {
            return Err(2);
        }
        if lent.records.is_some_and(|records| (records as u64) < numbers.peers) {
            return Err(11);
        }
        if id >= numbers.peers {
            return Err(3);
        }
        let id = id as usize;
        let registers = hub.registers(id);
        if registers.connected != 1 {
            return Err(4);
        }
        Ok(Caller { numbers, id, registers })
    }

    fn join(hub: &mut F, id: u64) -> Result<u32, u32> {
        if !T::sound(hub) {
            return Err(10);
        }
        if id >= hub.numbers().peers {
            return Err(3);
        }
        if hub.registers(id as usize).connected == 1 {
            return Err(5);
        }
        hub.reset(&hub.numbers(), id as usize, 1);
        Ok(0)
    }

    /// Reset and disconnect.
    fn restart(hub: &mut F, region: &mut [u8], table: &mut [Delivery], id: u64, connected: u32) -> Result<usize, u32> {
        let caller = Self::admit(hub, &Lent::both(region, table), id)?;
        hub.reset(&caller.numbers, caller.id, connected);
        Ok(announce(hub, region, table, &caller, 0))
    }

    fn store_register(
        hub: &mut F,
        region: &mut [u8],
        table: &mut [Delivery],
        id: u64,
        (offset, width): (u64, u64),
        value: u32,
    ) -> Result<usize, u32> {
        let caller = Self::admit(hub, &Lent::both(region, table), id)?;
        rules::bar_access(offset, width)?;
        if !caller.memory_space() {
            return Ok(0);
        }
        match offset {
            register::INTERRUPT_CONTROL => {
                hub.put_registers(caller.id, &Registers { interrupt: value & 1, ..caller.registers });
                Ok(0)
            }
            register::DOORBELL => {
                let Some(delivery) = ring(hub, &caller.numbers, value) else { return Ok(0) };
                table[0] = delivery;
                Ok(1)
            }
            register::STATE => {
                hub.put_registers(caller.id, &Registers { state: value, ..caller.registers });
                Ok(announce(hub, region, table, &caller, value))
            }
            _ => Ok(0),
        }
    }

    fn read_configuration(hub: &F, id: u64, offset: u64, width: u64) -> Result<u32, u32> {
        let caller = Self::admit(hub, &Lent::NOTHING, id)?;
        rules::configuration_access(offset, width)?;
        Ok(rules::configuration_read(&caller.numbers, &caller.registers, offset, width))
    }

    fn write_configuration(hub: &mut F, id: u64, offset: u64, width: u64, value: u32) -> Result<u32, u32> {
        let mut caller = Self::admit(hub, &Lent::NOTHING, id)?;
        rules::configuration_access(offset, width)?;
        rules::configuration_write(&mut caller.registers, offset, width, value);
        hub.put_registers(caller.id, &caller.registers);
        Ok(0)
    }

    fn read_register(hub: &F, id: u64, offset: u64, width: u64) -> Result<u32, u32> {
        let caller = Self::admit(hub, &Lent::NOTHING, id)?;
        rules::bar_access(offset, width)?;
        if !caller.memory_space() {
            return Ok(u32::MAX);
        }
        Ok(match offset {
            register::ID => caller.id as u32,
            register::MAXIMUM_PEERS => caller.numbers.peers as u32,
            register::INTERRUPT_CONTROL => caller.registers.interrupt,
            register::STATE => caller.registers.state,
            _ => 0,
        })
    }

    fn read_msix(hub: &F, id: u64, offset: u64, width: u64) -> Result<u32, u32> {
        let caller = Self::admit(hub, &Lent::NOTHING, id)?;
        rules::bar_access(offset, width)?;
        if !caller.memory_space() {
            return Ok(u32::MAX);
        }
        let vector = offset / 16;
        if vector >= caller.numbers.vectors {
            return Ok(0);
        }
        Ok(rules::entry_word(&hub.entry(&caller.numbers, caller.id, vector as usize), offset % 16))
    }

    fn write_msix(hub: &mut F, id: u64, offset: u64, width: u64, value: u32) -> Result<u32, u32> {
        let caller = Self::admit(hub, &Lent::NOTHING, id)?;
        rules::bar_access(offset, width)?;
        let vector = offset / 16;
        if caller.memory_space() && vector < caller.numbers.vectors {
            let mut entry = hub.entry(&caller.numbers, caller.id, vector as usize);
            rules::put_entry_word(&mut entry, offset % 16, value);
            hub.put_entry(&caller.numbers, caller.id, vector as usize, &entry);
        }
        Ok(0)
    }

    /// The section of a shared range, for a call that is lent the region or not.
    fn place(hub: &F, lent: &Lent, id: u64, offset: u64, length: u64) -> Result<Section, u32> {
        let caller = Self::admit(hub, lent, id)?;
        rules::section(&caller.numbers, offset, length)
    }
}

/// The State Table takes the value that the caller's State now has; where it was another, vector 0 of every other peer is
/// rung. Answers the count of deliveries.
fn announce(
    hub: &mut (impl State + ?Sized),
    region: &mut [u8],
    table: &mut [Delivery],
    caller: &Caller,
    value: u32,
) -> usize {
    region[4 * caller.id..][..4].copy_from_slice(&value.to_le_bytes());
    if value == caller.registers.state {
        return 0;
    }
    hub.ring_others(&caller.numbers, caller.id, table)
}

/// What a doorbell's value rings, if it is delivered.
fn ring(hub: &mut (impl State + ?Sized), numbers: &Numbers, value: u32) -> Option<Delivery> {
    let (target, vector) = ((value >> 16) as usize, (value & 0xffff) as usize);
    if target as u64 >= numbers.peers || vector as u64 >= numbers.vectors {
        return None;
    }
    let mut registers = hub.registers(target);
    let entry = hub.entry(numbers, target, vector);
    if !rules::passes(&registers, entry.control) {
        return None;
    }
    if registers.privileged & 1 == 1 {
        registers.interrupt = 0;
        hub.put_registers(target, &registers);
    }
    Some(rules::delivery(target, vector, &entry))
}

fn begin(hub: &mut (impl State + ?Sized), region: &mut [u8], settings: &Settings) -> Result<u32, u32> {
    let numbers = Numbers::from(settings);
    let refusal = if !rules::accepted(&numbers) {
        Err(1)
    } else if !hub.fits(&numbers) {
        Err(10)
    } else if region.len() as u64 != rules::total(&numbers) {
        Err(2)
    } else {
        Ok(0)
    };
    if refusal.is_err() {
        hub.clear();
        return refusal;
    }
    hub.begin(&numbers);
    region.fill(0);
    refusal
}

fn reply(outcome: Result<u32, u32>) -> Reply {
    match outcome {
        Ok(value) => Reply { number: 0, value },
        Err(number) => Reply { number, value: 0 },
    }
}

fn counted(outcome: Result<usize, u32>) -> Counted {
    match outcome {
        Ok(count) => Counted { reply: reply(Ok(0)), count },
        Err(number) => Counted { reply: reply(Err(number)), count: 0 },
    }
}

fn section_reply(outcome: Result<Section, u32>, id: u64) -> SectionReply {
    let (kind, owner, store) = match outcome {
        Err(number) => return SectionReply { reply: reply(Err(number)), ..SectionReply::default() },
        Ok(section @ Section::StateTable) => (1, 0, rules::may_store(section, id)),
        Ok(section @ Section::ReadWrite) => (2, 0, rules::may_store(section, id)),
        Ok(section @ Section::Output(owner)) => (3, owner.0.into(), rules::may_store(section, id)),
    };
    SectionReply { reply: reply(Ok(0)), kind, owner, store: store.into() }
}

// Every call is a function of its own, like the library's, with the arguments of [`ivshmem::raw`].
impl<F: State + ?Sized, T: Soundness<F>> Yardstick<F, T> {
    #[inline(never)]
    fn set_up(hub: &mut F, region: &mut [u8], settings: &Settings) -> Reply {
        reply(begin(hub, region, settings))
    }

    #[inline(never)]
    fn connect(hub: &mut F, id: u64) -> Reply {
        reply(Self::join(hub, id))
    }

    #[inline(never)]
    fn disconnect(hub: &mut F, region: &mut [u8], table: &mut [Delivery], id: u64) -> Counted {
        counted(Self::restart(hub, region, table, id, 0))
    }

    #[inline(never)]
    fn reset(hub: &mut F, region: &mut [u8], table: &mut [Delivery], id: u64) -> Counted {
        counted(Self::restart(hub, region, table, id, 1))
    }

    #[inline(never)]
    fn configuration_read(hub: &F, id: u64, offset: u64, width: u64) -> Reply {
        reply(Self::read_configuration(hub, id, offset, width))
    }

    #[inline(never)]
    fn configuration_write(hub: &mut F, id: u64, offset: u64, width: u64, value: u32) -> Reply {
        reply(Self::write_configuration(hub, id, offset, width, value))
    }

    #[inline(never)]
    fn register_read(hub: &F, id: u64, offset: u64, width: u64) -> Reply {
        reply(Self::read_register(hub, id, offset, width))
    }

    #[inline(never)]
    fn register_write(
        hub: &mut F,
        region: &mut [u8],
        table: &mut [Delivery],
        id: u64,
        offset: u64,
        width: u64,
        value: u32,
    ) -> Counted {
        counted(Self::store_register(hub, region, table, id, (offset, width), value))
    }

    #[inline(never)]
    fn msix_read(hub: &F, id: u64, offset: u64, width: u64) -> Reply {
        reply(Self::read_msix(hub, id, offset, width))
    }

    #[inline(never)]
    fn msix_write(hub: &mut F, id: u64, offset: u64, width: u64, value: u32) -> Reply {
        reply(Self::write_msix(hub, id, offset, width, value))
    }

    #[inline(never)]
    fn section_question(hub: &F, id: u64, offset: u64, length: u64) -> SectionReply {
        section_reply(Self::place(hub, &Lent::NOTHING, id, offset, length), id)
    }

    #[inline(never)]
    fn load(hub: &F, region: &[u8], id: u64, offset: u64, buffer: &mut [u8]) -> Reply {
        let section = Self::place(hub, &Lent::region(region), id, offset, buffer.len() as u64);
        reply(section.map(|_| {
            buffer.copy_from_slice(&region[offset as usize..][..buffer.len()]);
            0
        }))
    }

    #[inline(never)]
    fn store(hub: &F, region: &mut [u8], id: u64, offset: u64, bytes: &[u8]) -> Reply {
        let section = Self::place(hub, &Lent::region(region), id, offset, bytes.len() as u64);
        reply(section.and_then(|section| {
            if !rules::may_store(section, id) {
                return Err(9);
            }
            region[offset as usize..][..bytes.len()].copy_from_slice(bytes);
            Ok(0)
        }))
    }
}

impl<F: Form + ?Sized, T: Soundness<F>> Device for Yardstick<F, T> {
    type Hub = F;

    fn perform(hub: &mut F, call: &Call, lent: Lending<'_>) -> Answer {
        perform_by!(Self, hub, call, lent)
    }
}
