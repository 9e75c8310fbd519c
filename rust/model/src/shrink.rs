//! Cuts a failing history short: drops events, lets fewer peers do it, then makes numbers simpler, as long as it still fails.

use std::collections::BTreeSet;
use std::fmt;

use crate::call::{Call, Event, Lengths};
use crate::hub::MIN_BASE;

/// How often a number is made simpler, and how often the whole is gone over.
const ROUNDS: usize = 50;

/// Runs a history anew; the place and the words of the first difference.
pub type Replay<'a> = &'a dyn Fn(&[Event]) -> Option<(usize, String)>;

/// A history after which subject and model differ, cut short.
#[derive(Debug)]
pub struct Failure {
    /// What is left of the history.
    pub events: Vec<Event>,
    /// What differs after its last event.
    pub difference: String,
    /// How long the history was before it was cut.
    pub found_after: usize,
}

impl fmt::Display for Failure {
    fn fmt(&self, f: &mut fmt::Formatter<'_>) -> fmt::Result {
        writeln!(f, "a history of {} events, cut from {}:", self.events.len(), self.found_after)?;
        for (at, event) in self.events.iter().enumerate() {
            writeln!(f, "{:>4}. {event}", at + 1)?;
        }
        write!(f, "then {}", self.difference)
    }
}

/// The shortest history found that still shows a difference.
#[must_use]
pub fn shrink(replay: Replay<'_>, mut events: Vec<Event>) -> Failure {
    let found_after = events.len();
    cut_after_failure(replay, &mut events);
    for _ in 0..ROUNDS {
        let before = events.clone();
        drop_events(replay, &mut events);
        drop_pairs(replay, &mut events);
        join_peers(replay, &mut events);
        simplify_events(replay, &mut events);
        if events == before {
            break;
        }
    }
    let difference = replay(&events).map_or("nothing differs when replayed".to_string(), |(_, text)| text);
    Failure { events, difference, found_after }
}

fn cut_after_failure(replay: Replay<'_>, events: &mut Vec<Event>) {
    if let Some((at, _)) = replay(events) {
        events.truncate(at + 1);
    }
}

fn drop_events(replay: Replay<'_>, events: &mut Vec<Event>) {
    let mut size = events.len() / 2;
    while size > 0 {
        let mut end = events.len();
        while end > 0 {
            let start = end.saturating_sub(size);
            let mut shorter = events.clone();
            shorter.drain(start..end);
            if replay(&shorter).is_some() {
                *events = shorter;
                cut_after_failure(replay, events);
            }
            end = start.min(events.len());
        }
        size /= 2;
    }
}

/// Two events that undo each other only go together; this looks at all pairs, so the history must be short by now.
fn drop_pairs(replay: Replay<'_>, events: &mut Vec<Event>) {
    let pairs = |length: usize| (0..length).flat_map(move |second| (0..second).map(move |first| (first, second)));
    while let Some(shorter) = pairs(events.len().min(40)).find_map(|(first, second)| {
        let mut shorter = events.clone();
        shorter.remove(second);
        shorter.remove(first);
        replay(&shorter).map(|_| shorter)
    }) {
        *events = shorter;
    }
}

/// Lets one peer do what two did: where there are many, a history has more of them than it needs.
fn join_peers(replay: Replay<'_>, events: &mut Vec<Event>) {
    let ids: BTreeSet<u64> = events.iter_mut().filter_map(|event| id_of(event).copied()).collect();
    for (from, to) in ids.iter().flat_map(|from| ids.range(..from).map(move |to| (from, to))) {
        let mut joined = events.clone();
        for id in joined.iter_mut().filter_map(id_of).filter(|id| **id == *from) {
            *id = *to;
        }
        if joined != *events && replay(&joined).is_some() {
            *events = joined;
        }
    }
    cut_after_failure(replay, events);
}

/// The peer that a call is by or on.
fn id_of(event: &mut Event) -> Option<&mut u64> {
    match event {
        Event::Call(Call::SetUp(_), _) | Event::Flip { .. } | Event::Plant(..) => None,
        Event::Call(call, _) => match field_of(call, 0) {
            Some(Field::Long(id)) => Some(id),
            _ => None,
        },
    }
}

fn simplify_events(replay: Replay<'_>, events: &mut Vec<Event>) {
    for at in 0..events.len() {
        // Each round takes the first simpler form that still fails. Going down by ones can take long, so not all the way.
        for _ in 0..ROUNDS {
            let Some(simpler) = simpler_forms(&events[at]).into_iter().find(|form| {
                let mut candidate = events.clone();
                candidate[at] = form.clone();
                replay(&candidate).is_some()
            }) else {
                break;
            };
            events[at] = simpler;
        }
    }
    cut_after_failure(replay, events);
}

/// Forms of an event with one number made simpler; every number only goes down, so that this comes to an end.
fn simpler_forms(event: &Event) -> Vec<Event> {
    match event {
        Event::Call(call, lengths) => {
            let usual = simpler_lengths(lengths).into_iter().map(|simpler| Event::Call(call.clone(), simpler));
            let calls = simpler_calls(call).into_iter().map(|simpler| Event::Call(simpler, *lengths));
            usual.chain(calls).collect()
        }
        Event::Flip { word, bits } => {
            let one_bit = 1 << bits.trailing_zeros().min(31);
            let form = Event::Flip { word: *word, bits: one_bit };
            if *bits == one_bit { Vec::new() } else { vec![form] }
        }
        Event::Plant(..) => Vec::new(),
    }
}

/// All usual, or one of them.
fn simpler_lengths(lengths: &Lengths) -> Vec<Lengths> {
    let Lengths { words, region, records } = Lengths::USUAL;
    let forms = [
        Lengths::USUAL,
        Lengths { words, ..*lengths },
        Lengths { region, ..*lengths },
        Lengths { records, ..*lengths },
    ];
    forms.into_iter().filter(|form| form != lengths).collect()
}

fn simpler_calls(call: &Call) -> Vec<Call> {
    let mut forms = Vec::new();
    for field in 0..9 {
        for step in 0..5 {
            let mut form = call.clone();
            if let Some(number) = field_of(&mut form, field) {
                number.lower(step);
            }
            if form != *call && !forms.contains(&form) {
                forms.push(form);
            }
        }
    }
    forms
}

/// A number of a call, to be made simpler in place.
enum Field<'a> {
    Byte(&'a mut u8),
    Half(&'a mut u16),
    Word(&'a mut u32),
    Long(&'a mut u64),
    Base(&'a mut u64),
    Size(&'a mut usize),
}

impl Field<'_> {
    fn lower(self, step: u32) {
        let lowered = |number: u64| match step {
            0 => 0,
            1 => number.min(1),
            2 => number / 2,
            3 => number - number.checked_ilog2().map_or(0, |bit| 1 << bit),
            _ => number.saturating_sub(1),
        };
        match self {
            Field::Byte(number) => *number = lowered(u64::from(*number)) as u8,
            Field::Half(number) => *number = lowered(u64::from(*number)) as u16,
            Field::Word(number) => *number = lowered(u64::from(*number)) as u32,
            Field::Long(number) => *number = lowered(*number),
            // The lowest that set-up takes is simpler than others that it takes.
            Field::Base(number) if step == 1 => *number = MIN_BASE.min(*number),
            Field::Base(number) => *number = lowered(*number),
            Field::Size(number) => *number = lowered(*number as u64) as usize,
        }
    }
}

fn field_of(call: &mut Call, field: usize) -> Option<Field<'_>> {
    let fields = match call {
        Call::SetUp(s) => vec![
            Field::Long(&mut s.peers),
            Field::Long(&mut s.vectors),
            Field::Long(&mut s.state_table),
            Field::Long(&mut s.read_write),
            Field::Long(&mut s.output),
            Field::Base(&mut s.base),
            Field::Half(&mut s.protocol),
            Field::Half(&mut s.subsystem_vendor),
            Field::Half(&mut s.subsystem_id),
        ],
        Call::Connect { id } | Call::Disconnect { id } | Call::Reset { id } => vec![Field::Long(id)],
        Call::ConfigurationRead { id, offset, width }
        | Call::RegisterRead { id, offset, width }
        | Call::MsixRead { id, offset, width } => vec![Field::Long(id), Field::Long(offset), Field::Long(width)],
        Call::ConfigurationWrite { id, offset, width, value }
        | Call::RegisterWrite { id, offset, width, value }
        | Call::MsixWrite { id, offset, width, value } => {
            vec![Field::Long(id), Field::Long(offset), Field::Long(width), Field::Word(value)]
        }
        Call::Section { id, offset, length } => vec![Field::Long(id), Field::Long(offset), Field::Long(length)],
        Call::Load { id, offset, length } => vec![Field::Long(id), Field::Long(offset), Field::Size(length)],
        Call::Store { id, offset, length, fill } => {
            vec![Field::Long(id), Field::Long(offset), Field::Size(length), Field::Byte(fill)]
        }
    };
    fields.into_iter().nth(field)
}
