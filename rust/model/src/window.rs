//! The window of one peer in a history (R69 to R71), from the calls and whether each was accepted. Nothing here looks at a hub.

use std::fmt;

use crate::call::{Call, Event, Lengths};

/// What the window of peer B "holds in order, and nothing else" (R69).
#[derive(Clone, Debug, PartialEq, Eq)]
pub enum Item {
    /// (a) A call by B or on B, accepted or refused: its arguments and the lengths that it was lent.
    Own(Call, Lengths),
    /// (b) "another's accepted Doorbell store at id B, with that peer's Command bit 1 on": the vector.
    Bell { vector: u32 },
    /// (c) Another's State value that changes, by its store or to 0 by its reset or disconnect: the id and the new value.
    Word { id: u64, value: u32 },
    /// (d) "another's accepted store of shared bytes": offset and bytes.
    Bytes { offset: u64, bytes: Vec<u8> },
}

/// The names of the items, in the order of [`Item::kind`].
pub const ITEMS: [&str; 4] = ["own calls", "doorbells", "State values", "shared stores"];

impl Item {
    /// Which of [`ITEMS`] it is.
    #[must_use]
    pub fn kind(&self) -> usize {
        match self {
            Item::Own(..) => 0,
            Item::Bell { .. } => 1,
            Item::Word { .. } => 2,
            Item::Bytes { .. } => 3,
        }
    }
}

impl fmt::Display for Item {
    fn fmt(&self, f: &mut fmt::Formatter<'_>) -> fmt::Result {
        match self {
            Item::Own(..) => write!(f, "own call"),
            Item::Bell { vector } => write!(f, "vector {vector} rung"),
            Item::Word { id, value } => write!(f, "State of {id} is {value:#x}"),
            Item::Bytes { offset, bytes } => write!(f, "{} bytes at {offset}", bytes.len()),
        }
    }
}

/// What the accepted calls of a peer say about it.
#[derive(Clone, Copy, Default)]
struct Told {
    /// Its Command bit 1, as R71 has it worked out.
    memory: bool,
    /// The value of its State (R56).
    state: u32,
}

/// The window of one peer, call by call.
pub struct Window {
    of: u64,
    told: Vec<Told>,
    /// What it holds.
    pub items: Vec<Item>,
}

impl Window {
    /// The empty window of a peer of a fresh hub of so many.
    #[must_use]
    pub fn new(of: u64, peers: u64) -> Window {
        Window { of, told: vec![Told::default(); peers as usize], items: Vec::new() }
    }

    /// Takes in the next event of the history, a call; the item that it gives (R69).
    pub fn take(&mut self, event: &Event, accepted: bool) -> Option<&Item> {
        let Event::Call(call, lengths) = event else { return None };
        let item = if call.peer() == Some(self.of) {
            Some(Item::Own(call.clone(), *lengths))
        } else if accepted {
            self.sent(call)
        } else {
            None
        };
        if accepted {
            self.tell(call);
        }
        let there = item.is_some();
        self.items.extend(item);
        self.items.last().filter(|_| there)
    }

    /// What another's accepted call gives (R70).
    fn sent(&self, call: &Call) -> Option<Item> {
        let told = |id: u64| self.told.get(id as usize).copied().unwrap_or_default();
        let changed = |id: u64, value: u32| (value != told(id).state).then_some(Item::Word { id, value });
        match *call {
            Call::RegisterWrite { id, .. } if !told(id).memory => None,
            Call::RegisterWrite { offset: 0x0c, value, .. } => {
                (u64::from(value >> 16) == self.of).then_some(Item::Bell { vector: value & 0xffff })
            }
            Call::RegisterWrite { id, offset: 0x10, value, .. } => changed(id, value),
            Call::Reset { id } | Call::Disconnect { id } => changed(id, 0),
            Call::Store { offset, length, .. } => {
                Some(Item::Bytes { offset, bytes: (0..length).map(call.buffer_byte()).collect() })
            }
            _ => None,
        }
    }

    /// What an accepted call says about the peer that it is by or on (R71).
    fn tell(&mut self, call: &Call) {
        let Some(told) = call.peer().and_then(|id| self.told.get_mut(id as usize)) else { return };
        match *call {
            Call::Connect { .. } | Call::Reset { .. } => *told = Told::default(),
            Call::Disconnect { .. } => told.state = 0,
            Call::ConfigurationWrite { offset, width, value, .. } if (offset..offset + width).contains(&0x04) => {
                told.memory = value >> (8 * (0x04 - offset)) & 0b10 != 0;
            }
            Call::RegisterWrite { offset: 0x10, value, .. } if told.memory => told.state = value,
            _ => {}
        }
    }
}
