//! Isolation (R72) on the linked library: histories with the same window of a peer, which the peer must not be able to tell
//! apart. And the library with a slip that tells a peer something about the others: each must be found.

use std::io::Write;
use std::time::Instant;

use ivshmem::{Delivery, MAX_PEERS, PeerId, Section, Vector, register};
use model::call::Call;
use model::hub::{Block, Hub};
use model::isolation::{self, Leak};
use model::layout::{decode, encode, interrupt_word, state_word};
use model::subject::{Answer, Lent, Library, Subject};

#[test]
fn equal_windows_look_the_same() {
    const PAIRS: u64 = 40_000;
    let start = Instant::now();
    // Some of those that are made have other windows.
    let tally = match isolation::run(|| Library, 17, PAIRS + 2_000) {
        Ok(tally) => tally,
        Err(leak) => panic!("{leak}"),
    };
    // Printed past the test's capture, so that every run shows it.
    let _ = writeln!(std::io::stdout().lock(), "{tally}\n{:.1} s", start.elapsed().as_secs_f64());
    assert!(tally.pairs >= PAIRS);
    assert!(tally.calls >= 100 * PAIRS && tally.others >= 60 * PAIRS);
    assert!(tally.items[0] >= 40 * PAIRS);
    assert!(tally.items[1..].iter().all(|&items| items >= 2 * PAIRS));
    assert!(tally.deliveries >= 4 * PAIRS && tally.cleared >= PAIRS);
    assert!(tally.answers[0] >= 40 * PAIRS && tally.answers[1] >= 4 * PAIRS);
    assert!(tally.loads >= PAIRS / 4);
    // The histories do differ, in what others do and in what becomes of it.
    assert!(tally.other_numbers >= PAIRS * 9 / 10);
    assert!(tally.other_deliveries >= PAIRS / 2);
    assert!(tally.other_senders >= PAIRS / 2);
    assert!(tally.hidden >= PAIRS / 8);
    assert!(tally.large >= PAIRS / 40);
    // Windows that differ by something that another sends can mostly be told apart: they hold nothing in vain.
    assert!(tally.unequal >= 1_000 && tally.told_apart * 2 >= tally.unequal);
}

/// The library and what goes wrong with it.
struct Leaky<F>(F);

impl<F: FnMut(&Call, Lent<'_>) -> Answer> Subject for Leaky<F> {
    fn perform(&mut self, call: &Call, lent: Lent<'_>) -> Answer {
        (self.0)(call, lent)
    }
}

fn right(call: &Call, lent: &mut Lent<'_>) -> Answer {
    let Lent { words, region, table, buffer } = lent;
    Library.perform(call, Lent { words, region, table, buffer })
}

/// The hub that a call was made on, where it was accepted.
fn hub_of(lent: &Lent<'_>, answer: &Answer) -> Option<Hub> {
    decode(lent.words).filter(|_| answer.number == 0)
}

/// Runs until a peer learns something, prints the two histories and checks that they are short.
fn is_found<F: FnMut(&Call, Lent<'_>) -> Answer>(name: &str, longest: usize, make: impl Fn() -> F) {
    let leak: Box<Leak> = isolation::run(|| Leaky(make()), 5, 4_000).expect_err(name);
    println!("{name}: {leak}\n");
    assert!(leak.histories.iter().map(Vec::len).sum::<usize>() <= longest, "{name}: {leak}");
}

#[test]
fn maximum_peers_counts_the_connected() {
    is_found("Maximum Peers reads how many are connected", 5, || {
        |call: &Call, mut lent: Lent<'_>| {
            let answer = right(call, &mut lent);
            match (call, hub_of(&lent, &answer)) {
                (Call::RegisterRead { offset: register::MAXIMUM_PEERS, .. }, Some(hub)) if answer.value != u32::MAX => {
                    Answer { value: hub.peers.iter().map(|peer| peer.connected).sum(), ..answer }
                }
                _ => answer,
            }
        }
    });
}

#[test]
fn doorbell_reads_the_last_value() {
    is_found("Doorbell reads what was stored last", 6, || {
        let mut last = 0;
        move |call: &Call, mut lent: Lent<'_>| {
            let answer = right(call, &mut lent);
            match (call, answer.number) {
                (Call::RegisterWrite { offset: register::DOORBELL, value, .. }, 0) => last = *value,
                (Call::RegisterRead { offset: register::DOORBELL, .. }, 0) if answer.value == 0 => {
                    return Answer { value: last, ..answer };
                }
                _ => {}
            }
            answer
        }
    });
}

/// A ring that is lost at a mask is kept, and handed out with the next store of anyone to a register that finds it off.
#[test]
fn a_masked_ring_stays_pending() {
    is_found("a masked ring stays pending", 20, || {
        let mut pending: Vec<(u64, u64)> = Vec::new();
        move |call: &Call, mut lent: Lent<'_>| {
            let mut answer = right(call, &mut lent);
            let (Call::RegisterWrite { id, offset, value, .. }, Some(hub)) = (call, hub_of(&lent, &answer)) else {
                return answer;
            };
            let rings = *offset == register::DOORBELL && hub.peers[*id as usize].command & 2 != 0;
            pending.retain(|&(target, vector)| {
                let sent = hub.blocks(target, vector).is_empty() && answer.count < lent.table.len();
                if sent {
                    let entry = hub.entries_of(target)[vector as usize];
                    let address = u64::from(entry.high) << 32 | u64::from(entry.low);
                    let (target, vector) = (PeerId(target as u16), Vector(vector as u16));
                    lent.table[answer.count] = Delivery { address, data: entry.data, target, vector };
                    answer.count += 1;
                }
                !sent
            });
            let rung = (u64::from(value >> 16), u64::from(value & 0xffff));
            if rings && hub.blocks(rung.0, rung.1) == [Block::EntryMasked] {
                pending.push(rung);
            }
            answer
        }
    });
}

#[test]
fn a_refused_doorbell_rings() {
    is_found("a doorbell that is refused with 11 rings", 15, || {
        |call: &Call, mut lent: Lent<'_>| {
            let answer = right(call, &mut lent);
            if answer.number != 11 || lent.table.is_empty() {
                return answer;
            }
            let mut table = [Delivery::default(); MAX_PEERS];
            let Lent { words, region, buffer, .. } = &mut lent;
            let counted = Library.perform(call, Lent { words, region, table: &mut table, buffer });
            let count = counted.count.min(lent.table.len());
            lent.table[..count].copy_from_slice(&table[..count]);
            Answer { count, ..answer }
        }
    });
}

/// The peer whose Interrupt Control is cleared in the place of the target's, from the target, the sender and the number of peers.
fn clears_at(name: &str, longest: usize, place: fn(u64, u64, u64) -> u64) {
    is_found(name, longest, || {
        move |call: &Call, mut lent: Lent<'_>| {
            let answer = right(call, &mut lent);
            if let (Some(id), Some(hub)) = (call.peer(), hub_of(&lent, &answer)) {
                for delivery in &lent.table[..answer.count] {
                    let target = u64::from(delivery.target.0);
                    if hub.peers[target as usize].privileged == 1 {
                        lent.words[interrupt_word(target)] = 1;
                        lent.words[interrupt_word(place(target, id, hub.numbers.peers))] = 0;
                    }
                }
            }
            answer
        }
    });
}

#[test]
fn one_shot_clears_at_the_wrong_peer() {
    clears_at("one-shot clears at the sender", 16, |_, sender, _| sender);
    clears_at("one-shot clears at the peer behind the target", 24, |target, _, peers| (target + 1) % peers);
}

#[test]
fn a_store_answers_its_count() {
    is_found("a store to a register answers how many were rung", 13, || {
        |call: &Call, mut lent: Lent<'_>| {
            let answer = right(call, &mut lent);
            let rings = matches!(call, Call::RegisterWrite { .. });
            Answer { value: if rings { answer.count as u32 } else { answer.value }, ..answer }
        }
    });
}

/// A word of the hub is another during the call.
fn with_word(call: &Call, lent: &mut Lent<'_>, at: usize, value: u32) -> Answer {
    let before = lent.words[at];
    lent.words[at] = value;
    let answer = right(call, lent);
    lent.words[at] = before;
    answer
}

#[test]
fn a_hidden_doorbell_rings() {
    is_found("a doorbell rings with Command bit 1 off", 14, || {
        |call: &Call, mut lent: Lent<'_>| match (call, decode(lent.words)) {
            (Call::RegisterWrite { id, offset: register::DOORBELL, .. }, Some(hub))
                if hub.peers.get(*id as usize).is_some_and(|peer| peer.connected == 1) =>
            {
                let command = state_word(*id) - 6;
                let on = lent.words[command] | 2;
                with_word(call, &mut lent, command, on)
            }
            _ => right(call, &mut lent),
        }
    });
}

#[test]
fn a_state_stored_again_rings() {
    is_found("a State that stays the same rings", 15, || {
        |call: &Call, mut lent: Lent<'_>| match (call, decode(lent.words)) {
            (Call::RegisterWrite { id, offset: register::STATE, value, .. }, Some(hub))
                if hub.peers.get(*id as usize).is_some_and(|peer| peer.command & 2 != 0 && peer.state == *value) =>
            {
                with_word(call, &mut lent, state_word(*id), !value)
            }
            _ => right(call, &mut lent),
        }
    });
}

#[test]
fn a_refused_store_leaves_a_byte() {
    is_found("a store that is refused with 9 stores its first byte", 4, || {
        |call: &Call, mut lent: Lent<'_>| {
            let answer = right(call, &mut lent);
            if let (Call::Store { offset, .. }, 9) = (call, answer.number) {
                lent.region[*offset as usize] = lent.buffer[0];
            }
            answer
        }
    });
}

#[test]
fn status_shows_interrupts_of_others() {
    is_found("Status shows that somebody was interrupted", 13, || {
        let mut interrupted = 0;
        move |call: &Call, mut lent: Lent<'_>| {
            let mut answer = right(call, &mut lent);
            if let (Call::ConfigurationRead { offset: 0x04, width: 4, .. }, 0) = (call, answer.number) {
                answer.value |= interrupted;
            }
            if answer.count > 0 {
                interrupted = 1 << 19;
            }
            answer
        }
    });
}

#[test]
fn sections_show_who_is_connected() {
    let owner_away = |lent: &Lent<'_>, offset: u64, length: u64| {
        let hub = decode(lent.words)?;
        let Some(Section::Output(owner)) = hub.section_of(offset, length) else { return None };
        Some(hub.peers[owner.0 as usize].connected == 0)
    };
    is_found("the output section of a peer that is away may be stored to", 7, || {
        |call: &Call, mut lent: Lent<'_>| {
            let answer = right(call, &mut lent);
            match *call {
                Call::Section { offset, length, .. }
                    if answer.number == 0 && owner_away(&lent, offset, length) == Some(true) =>
                {
                    Answer { store: 1, ..answer }
                }
                _ => answer,
            }
        }
    });
    is_found("the output section of a peer that is away reads zero", 10, || {
        |call: &Call, mut lent: Lent<'_>| {
            let answer = right(call, &mut lent);
            if let Call::Load { offset, length, .. } = *call
                && answer.number == 0
                && owner_away(&lent, offset, length as u64) == Some(true)
            {
                lent.buffer.fill(0);
            }
            answer
        }
    });
}

#[test]
fn an_entry_behind_the_last_is_the_next_peers() {
    is_found("a store to the entry behind the last goes to the next peer", 7, || {
        |call: &Call, mut lent: Lent<'_>| {
            let answer = right(call, &mut lent);
            if let (&Call::MsixWrite { id, offset, value, .. }, Some(mut hub)) = (call, hub_of(&lent, &answer))
                && offset == 16 * hub.numbers.vectors + 8
                && hub.peers[id as usize].command & 2 != 0
                && hub.peers.get(id as usize + 1).is_some_and(|next| next.connected == 1)
            {
                hub.entries_mut(id + 1)[0].data = value;
                lent.words.copy_from_slice(&encode(&hub));
            }
            answer
        }
    });
}

/// Nothing shows while the peer does not look: only the registers at the end are others.
#[test]
fn a_hidden_register_is_written() {
    is_found("Interrupt Control is stored at peers with Command bit 1 off too", 6, || {
        |call: &Call, mut lent: Lent<'_>| {
            let answer = right(call, &mut lent);
            if let (Call::RegisterWrite { offset: register::INTERRUPT_CONTROL, value, .. }, Some(hub)) =
                (call, hub_of(&lent, &answer))
            {
                for (id, peer) in (0..).zip(&hub.peers) {
                    if peer.connected == 1 && peer.command & 2 == 0 {
                        lent.words[interrupt_word(id)] = value & 1;
                    }
                }
            }
            answer
        }
    });
}
