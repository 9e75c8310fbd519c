//! Wrong models, each with one slip, most of which prototypes are known to make: the harness must find every one and cut the
//! history short, and those of one-shot mode must be found out of balance too.

use std::collections::HashMap;

use ivshmem::{MAX_PEERS, MAX_VECTORS, MIN_BASE, Section, Settings};
use model::call::Call;
use model::compare;
use model::hub::{Block, Hub, Numbers, Ring};
use model::layout::{BASE_WORDS, decode, decode_numbers, encode, hub_words};
use model::one_shot;
use model::shrink::Failure;
use model::subject::{Answer, Asked, Lent, Library, Met, Model, Subject};

/// A model and what goes wrong with it.
struct Wrong<F> {
    model: Model,
    slip: F,
}

impl<F: FnMut(&mut Model, &Call, Lent<'_>) -> Answer> Subject for Wrong<F> {
    fn perform(&mut self, call: &Call, lent: Lent<'_>) -> Answer {
        (self.slip)(&mut self.model, call, lent)
    }
}

fn again<'a>(lent: &'a mut Lent<'_>) -> Lent<'a> {
    Lent { words: lent.words, region: lent.region, table: lent.table, buffer: lent.buffer }
}

/// The right answer, then a change to the hub.
fn right_then(
    model: &mut Model,
    call: &Call,
    mut lent: Lent<'_>,
    change: impl FnOnce(&mut Hub, &[Ring], &Answer),
) -> Answer {
    let answer = model.perform(call, again(&mut lent));
    if let Some(mut hub) = decode(lent.words) {
        change(&mut hub, &model.rings, &answer);
        lent.words.copy_from_slice(&encode(&hub));
    }
    answer
}

/// A model that answers calls rightly, and the host's questions with a slip.
struct Misled {
    model: Model,
    slip: fn(&[u32], u64, Asked) -> Asked,
}

impl Subject for Misled {
    fn perform(&mut self, call: &Call, lent: Lent<'_>) -> Answer {
        self.model.perform(call, lent)
    }

    fn ask(&mut self, words: &[u32], id: u64) -> Option<Asked> {
        self.model.ask(words, id).map(|asked| (self.slip)(words, id, asked))
    }
}

/// Runs until the slip shows, prints what is left of the history and checks that it is short.
fn is_found<F, M>(name: &str, longest: usize, make: M)
where
    F: FnMut(&mut Model, &Call, Lent<'_>) -> Answer,
    M: Fn() -> F,
{
    comes_to_light(name, longest, || Wrong { model: Model::default(), slip: make() });
}

fn comes_to_light<S: Subject>(name: &str, longest: usize, subject: impl Fn() -> S) {
    let failure: Failure = compare::run(&subject, 3, 200_000).expect_err(name);
    println!("{name}: {failure}\n");
    assert!(failure.events.len() <= longest, "{name}: {failure}");
    assert!(compare::replay(subject(), &failure.events).is_some(), "{name}: the cut history fails by itself");
    assert_eq!(compare::replay(Library, &failure.events), None, "{name}: the library does not make this slip");
}

/// A slip of one-shot mode: found by the comparison, and by the balance of interrupts and own stores.
fn is_out_of_balance(name: &str, longest: usize, slip: fn(&mut Model, &Call, Lent<'_>) -> Answer) {
    is_found(name, longest, || slip);
    let text = one_shot::run(|| Wrong { model: Model::default(), slip }, 3, 200_000).expect_err(name);
    println!("{name}: {text}\n");
}

#[test]
fn clears_the_senders_bit() {
    is_out_of_balance("one-shot clears the sender's bit", 10, |model, call, lent| {
        right_then(model, call, lent, |hub, rings, _| {
            let (Call::RegisterWrite { id, .. }, [Ring::Delivered(delivery, true)]) = (call, rings) else { return };
            hub.peers[delivery.target.0 as usize].interrupt = 1;
            hub.peers[*id as usize].interrupt = 0;
        })
    });
}

#[test]
fn clears_nothing() {
    is_out_of_balance("one-shot does not clear", 10, |model, call, lent| {
        right_then(model, call, lent, |hub, rings, _| {
            for ring in rings {
                if let Ring::Delivered(delivery, true) = ring {
                    hub.peers[delivery.target.0 as usize].interrupt = 1;
                }
            }
        })
    });
}

#[test]
fn sets_the_targets_bit() {
    is_out_of_balance("a lost ring sets Interrupt Control", 10, |model, call, lent| {
        right_then(model, call, lent, |hub, rings, _| {
            if let (Call::RegisterWrite { offset: 0x0c, value, .. }, [Ring::Lost(blocks)]) = (call, rings)
                && *blocks == [Block::InterruptControlOff]
            {
                hub.peers[(value >> 16) as usize].interrupt = 1;
            }
        })
    });
}

#[test]
fn clears_one_shot_when_masked() {
    is_out_of_balance("a masked ring clears one-shot", 9, |model, call, lent| {
        right_then(model, call, lent, |hub, rings, _| {
            let (Call::RegisterWrite { offset: 0x0c, value, .. }, [Ring::Lost(blocks)]) = (call, rings) else { return };
            if *blocks == [Block::EntryMasked] {
                let target = &mut hub.peers[(value >> 16) as usize];
                target.interrupt &= !target.privileged;
            }
        })
    });
}

#[test]
fn keeps_a_masked_ring_pending() {
    is_found("a masked ring stays pending", 10, || {
        let mut pending = Vec::new();
        move |model: &mut Model, call: &Call, mut lent: Lent<'_>| {
            let mut answer = model.perform(call, again(&mut lent));
            let (Call::RegisterWrite { offset, value, .. }, 0) = (call, answer.number) else { return answer };
            let hub = decode(lent.words).expect("an accepted call has a hub");
            pending.retain(|&(target, vector)| {
                let sent = hub.blocks(target, vector).is_empty() && answer.count < lent.table.len();
                if sent {
                    lent.table[answer.count].target.0 = target as u16;
                    answer.count += 1;
                }
                !sent
            });
            let masked = matches!(&model.rings[..], [Ring::Lost(blocks)] if *blocks == [Block::EntryMasked]);
            if *offset == 0x0c && masked {
                pending.push((u64::from(value >> 16), u64::from(value & 0xffff)));
            }
            answer
        }
    });
}

#[test]
fn tests_only_the_first_byte() {
    is_found("only a store's first byte is tested", 4, || {
        |model: &mut Model, call: &Call, mut lent: Lent<'_>| {
            let answer = model.perform(call, again(&mut lent));
            let (Call::Store { id, offset, length, .. }, 8) = (call, answer.number) else { return answer };
            let hub = decode(lent.words).expect("a call refused with 8 has a hub");
            let may_store = match hub.section_of(*offset, 1) {
                Some(Section::ReadWrite) => true,
                Some(Section::Output(owner)) => u64::from(owner.0) == *id,
                _ => false,
            };
            match lent.region.get_mut(*offset as usize..).and_then(|rest| rest.get_mut(..*length)) {
                Some(range) if may_store => {
                    range.copy_from_slice(lent.buffer);
                    Answer::default()
                }
                _ => answer,
            }
        }
    });
}

#[test]
fn overwrites_the_capability() {
    is_found("a 4-byte write at 40h overwrites the capability", 4, || {
        let mut written = HashMap::new();
        move |model: &mut Model, call: &Call, lent: Lent<'_>| {
            let mut answer = model.perform(call, lent);
            match *call {
                Call::ConfigurationWrite { id, offset: 0x40, width: 4, value } if answer.number == 0 => {
                    written.insert(id, value);
                }
                Call::ConfigurationRead { id, offset: 0x40, width: 4 } if answer.number == 0 => {
                    answer.value = written.get(&id).copied().unwrap_or(answer.value);
                }
                _ => {}
            }
            answer
        }
    });
}

#[test]
fn reads_one_byte_too_many() {
    is_found("a configuration read takes the byte behind too", 3, || {
        |model: &mut Model, call: &Call, mut lent: Lent<'_>| {
            let mut answer = model.perform(call, again(&mut lent));
            if let (&Call::ConfigurationRead { id, offset, width: width @ (1 | 2) }, 0) = (call, answer.number) {
                let behind = Call::ConfigurationRead { id, offset: offset + width, width: 1 };
                answer.value |= model.perform(&behind, lent).value << (8 * width);
            }
            answer
        }
    });
}

/// The low bytes of a value in the other order, as many as an access has.
fn reversed(value: u32, width: u64) -> u32 {
    match width {
        2 | 4 => value.swap_bytes() >> (32 - 8 * width),
        _ => value,
    }
}

#[test]
fn takes_bytes_in_another_order() {
    is_found("a configuration read gives its bytes in the other order", 3, || {
        |model: &mut Model, call: &Call, lent: Lent<'_>| {
            let mut answer = model.perform(call, lent);
            if let Call::ConfigurationRead { width, .. } = call {
                answer.value = reversed(answer.value, *width);
            }
            answer
        }
    });
    is_found("a configuration write takes its bytes in the other order", 3, || {
        |model: &mut Model, call: &Call, lent: Lent<'_>| {
            let mut other = call.clone();
            if let Call::ConfigurationWrite { width, value, .. } = &mut other {
                *value = reversed(*value, *width);
            }
            model.perform(&other, lent)
        }
    });
}

#[test]
fn touches_a_later_record() {
    is_found("a record behind the count is written", 9, || {
        |model: &mut Model, call: &Call, mut lent: Lent<'_>| {
            let answer = model.perform(call, again(&mut lent));
            if let Some(record) = lent.table.get_mut(answer.count).filter(|_| answer.count > 0) {
                record.data = 0;
            }
            answer
        }
    });
}

#[test]
fn writes_the_buffer_when_refused() {
    is_found("a refused load writes its buffer", 3, || {
        |model: &mut Model, call: &Call, mut lent: Lent<'_>| {
            let answer = model.perform(call, again(&mut lent));
            if let (Call::Load { .. }, 8, Some(byte)) = (call, answer.number, lent.buffer.last_mut()) {
                *byte = 0;
            }
            answer
        }
    });
}

#[test]
fn leaves_the_table_entry_at_reset() {
    is_found("reset leaves the State Table entry", 5, || {
        |model: &mut Model, call: &Call, mut lent: Lent<'_>| {
            let before = lent.region.to_vec();
            let answer = model.perform(call, again(&mut lent));
            if let Call::Reset { .. } = call {
                lent.region.copy_from_slice(&before);
            }
            answer
        }
    });
}

/// The model on a hub whose peer's State is first made what the slip says, from what the call meets.
fn with_another_state(slip: fn(&Met) -> u32, model: &mut Model, call: &Call, mut lent: Lent<'_>) -> Answer {
    let before = lent.words.to_vec();
    if let (Some(mut hub), Some(id)) = (decode(lent.words), call.peer())
        && let Some(met) = Met::of(&hub, call, lent.region)
    {
        hub.peers[id as usize].state = slip(&met);
        lent.words.copy_from_slice(&encode(&hub));
    }
    let answer = model.perform(call, again(&mut lent));
    if answer.number != 0 {
        lent.words.copy_from_slice(&before);
    }
    answer
}

/// The others are rung whatever State was, in these calls.
fn rings_though_unchanged(name: &str, longest: usize, of: fn(&Call) -> bool) {
    is_found(name, longest, || {
        move |model: &mut Model, call: &Call, lent: Lent<'_>| {
            if of(call) { with_another_state(|met| !met.value, model, call, lent) } else { model.perform(call, lent) }
        }
    });
}

#[test]
fn rings_though_state_stays() {
    rings_though_unchanged("a State stored again rings", 11, |call| matches!(call, Call::RegisterWrite { .. }));
    rings_though_unchanged("a reset with State 0 rings", 9, |call| matches!(call, Call::Reset { .. }));
    rings_though_unchanged("a disconnect with State 0 rings", 9, |call| matches!(call, Call::Disconnect { .. }));
}

#[test]
fn compares_with_the_state_table() {
    is_found("the State Table entry is compared and not the register", 11, || {
        |model: &mut Model, call: &Call, lent: Lent<'_>| with_another_state(|met| met.entry, model, call, lent)
    });
}

#[test]
fn leaves_the_entry_where_state_stays() {
    is_found("a State that stays the same is not written to its entry", 6, || {
        |model: &mut Model, call: &Call, mut lent: Lent<'_>| {
            let before = lent.region.to_vec();
            let answer = model.perform(call, again(&mut lent));
            if model.met.is_some_and(|met| !met.changes()) {
                lent.region.copy_from_slice(&before);
            }
            answer
        }
    });
}

#[test]
fn refuses_in_another_order() {
    is_found("a short table is refused before a wrong region", 2, || {
        |model: &mut Model, call: &Call, mut lent: Lent<'_>| {
            let mut answer = model.perform(call, again(&mut lent));
            let rings = matches!(call, Call::RegisterWrite { .. } | Call::Reset { .. } | Call::Disconnect { .. });
            let peers = decode(lent.words).map_or(0, |hub| hub.numbers.peers as usize);
            if rings && answer.number == 2 && lent.table.len() < peers {
                answer.number = 11;
            }
            answer
        }
    });
}

#[test]
fn loses_the_high_half_of_an_offset() {
    is_found("an offset is cut to 32 bits", 3, || {
        |model: &mut Model, call: &Call, lent: Lent<'_>| {
            let mut cut = call.clone();
            if let Call::MsixRead { offset, .. } | Call::Section { offset, .. } = &mut cut {
                *offset &= 0xffff_ffff;
            }
            model.perform(&cut, lent)
        }
    });
}

/// A set-up with the words that it is lent, and what they are before.
fn set_up_slip(
    slip: fn(&Numbers, &[u32], &mut Answer, &mut Lent<'_>),
    model: &mut Model,
    call: &Call,
    mut lent: Lent<'_>,
) -> Answer {
    let before = lent.words.to_vec();
    let mut answer = model.perform(call, again(&mut lent));
    if let Call::SetUp(settings) = call {
        slip(&settings.into(), &before, &mut answer, &mut lent);
    }
    answer
}

#[test]
fn keeps_the_words_of_a_refused_set_up() {
    is_found("a set-up refused with 10 keeps its words", 2, || {
        |model: &mut Model, call: &Call, lent: Lent<'_>| {
            let slip = |_: &Numbers, before: &[u32], answer: &mut Answer, lent: &mut Lent<'_>| {
                if answer.number == 10 {
                    lent.words.copy_from_slice(before);
                }
            };
            set_up_slip(slip, model, call, lent)
        }
    });
}

#[test]
fn makes_only_the_settings_zero() {
    is_found("a refused set-up makes only its settings zero", 3, || {
        |model: &mut Model, call: &Call, lent: Lent<'_>| {
            let slip = |_: &Numbers, before: &[u32], answer: &mut Answer, lent: &mut Lent<'_>| {
                if let (1.., Some(rest)) = (answer.number, lent.words.get_mut(10..)) {
                    rest.copy_from_slice(&before[10..]);
                }
            };
            set_up_slip(slip, model, call, lent)
        }
    });
}

#[test]
fn refuses_the_words_first() {
    is_found("a set-up's words are refused before its numbers", 1, || {
        |model: &mut Model, call: &Call, lent: Lent<'_>| {
            let slip = |numbers: &Numbers, before: &[u32], answer: &mut Answer, _: &mut Lent<'_>| {
                if answer.number == 1 && before.len() as u128 != hub_words(numbers) {
                    answer.number = 10;
                }
            };
            set_up_slip(slip, model, call, lent)
        }
    });
}

#[test]
fn refuses_the_region_before_the_words() {
    is_found("a set-up's region is refused before its words", 1, || {
        |model: &mut Model, call: &Call, lent: Lent<'_>| {
            let slip = |numbers: &Numbers, _: &[u32], answer: &mut Answer, lent: &mut Lent<'_>| {
                if answer.number == 10 && lent.region.len() as u128 != numbers.total() {
                    answer.number = 2;
                }
            };
            set_up_slip(slip, model, call, lent)
        }
    });
}

/// The words in front that are asked for, where there are more.
fn in_front<'a>(lent: &'a mut Lent<'_>, asked: u128) -> Lent<'a> {
    let length = (lent.words.len() as u128).min(asked) as usize;
    Lent { words: &mut lent.words[..length], region: lent.region, table: lent.table, buffer: lent.buffer }
}

#[test]
fn takes_more_words_than_it_asks_for() {
    is_found("a call takes a hub with more words behind it", 2, || {
        |model: &mut Model, call: &Call, mut lent: Lent<'_>| {
            let asked = hub_words(&decode_numbers(lent.words));
            match call {
                Call::SetUp(_) => model.perform(call, lent),
                _ => model.perform(call, in_front(&mut lent, asked)),
            }
        }
    });
}

#[test]
fn sets_up_in_more_words_than_it_asks_for() {
    is_found("a set-up takes more words than it asks for", 1, || {
        |model: &mut Model, call: &Call, mut lent: Lent<'_>| match call {
            Call::SetUp(settings) => model.perform(call, in_front(&mut lent, hub_words(&settings.into()))),
            _ => model.perform(call, lent),
        }
    });
}

#[test]
fn loses_the_high_half_of_word_0() {
    is_found("word 0 is cut to 16 bits", 3, || {
        |model: &mut Model, call: &Call, mut lent: Lent<'_>| {
            let high = lent.words.first().map_or(0, |word| word & 0xffff_0000);
            if high == 0 || matches!(call, Call::SetUp(_)) {
                return model.perform(call, lent);
            }
            lent.words[0] &= 0xffff;
            let answer = model.perform(call, again(&mut lent));
            lent.words[0] |= high;
            answer
        }
    });
}

#[test]
fn takes_a_page_of_low_memory() {
    is_found("the lowest base is a page lower", 1, || {
        |model: &mut Model, call: &Call, mut lent: Lent<'_>| {
            const LOW: u64 = MIN_BASE - 4096;
            let Call::SetUp(settings @ Settings { base: LOW, .. }) = call else { return model.perform(call, lent) };
            let answer = model.perform(&Call::SetUp(Settings { base: MIN_BASE, ..*settings }), again(&mut lent));
            if answer.number == 0 {
                lent.words[BASE_WORDS[0]] = LOW as u32;
            }
            answer
        }
    });
}

#[test]
fn answers_on_a_hub_in_low_memory() {
    is_found("a stored base may be any", 4, || {
        |model: &mut Model, call: &Call, mut lent: Lent<'_>| {
            let low = decode_numbers(lent.words).base < MIN_BASE && lent.words.len() > BASE_WORDS[1];
            if !low || matches!(call, Call::SetUp(_)) {
                return model.perform(call, lent);
            }
            let base = lent.words[BASE_WORDS[0]];
            lent.words[BASE_WORDS[0]] = MIN_BASE as u32;
            let answer = model.perform(call, again(&mut lent));
            lent.words[BASE_WORDS[0]] = base;
            answer
        }
    });
}

/// Reads entries where they would stand if every peer had so many vectors and a column had a place for so many peers.
fn reads_entries_of(name: &str, peers: Option<usize>, vectors: Option<usize>) {
    is_found(name, 5, || {
        |model: &mut Model, call: &Call, mut lent: Lent<'_>| {
            let mut answer = model.perform(call, again(&mut lent));
            let (Call::MsixRead { id, offset, .. }, 0, true) = (call, answer.number, answer.value != u32::MAX) else {
                return answer;
            };
            let n = decode_numbers(lent.words);
            if offset / 16 < n.vectors {
                let (peers, vectors) = (peers.unwrap_or(n.peers as usize), vectors.unwrap_or(n.vectors as usize));
                let (vector, column) = ((offset / 16) as usize, (offset % 16 / 4) as usize);
                let at = 10 + 8 * peers + column * peers * vectors + *id as usize * vectors + vector;
                answer.value = lent.words.get(at).copied().unwrap_or_default();
            }
            answer
        }
    });
}

#[test]
fn reads_entries_with_the_largest_strides() {
    reads_entries_of("entries stand as in the largest hub", Some(MAX_PEERS), Some(MAX_VECTORS));
    reads_entries_of("a column has a place for the most peers", Some(MAX_PEERS), None);
    reads_entries_of("every peer has the most vectors", None, Some(MAX_VECTORS));
}

#[test]
fn answers_the_hosts_questions_wrongly() {
    let misled = |name, longest, slip| comes_to_light(name, longest, || Misled { model: Model::default(), slip });
    misled("a hub with good settings is sound", 3, |words, _, asked| {
        let numbers = decode_numbers(words);
        Asked { sound: (numbers.accepted() && hub_words(&numbers) == words.len() as u128).into(), ..asked }
    });
    misled("a sound hub with words behind it is sound", 2, |words, _, asked| {
        let front = usize::try_from(hub_words(&decode_numbers(words))).ok().and_then(|asked| words.get(..asked));
        Asked { sound: front.and_then(decode).is_some_and(|hub| hub.sound()).into(), ..asked }
    });
    misled("a peer that does not exist is not connected", 2, |_, _, asked| match asked.connected.number {
        3 => Asked { connected: Answer::default(), ..asked },
        _ => asked,
    });
    misled("an id is cut to 32 bits", 2, |words, id, asked| {
        let cut = Model::default().ask(words, id & 0xffff_ffff);
        Asked { connected: cut.map_or(asked.connected, |cut| cut.connected), ..asked }
    });
    misled("a peer of a hub that is not sound is connected", 3, |words, id, asked| match asked.connected.number {
        10 => {
            let peers = decode(words).map_or(Vec::new(), |hub| hub.peers);
            let value = peers.get(id as usize).map_or(0, |peer| peer.connected);
            Asked { connected: Answer { value, ..Answer::default() }, ..asked }
        }
        _ => asked,
    });
}
