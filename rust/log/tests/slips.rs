//! Wrong players, each with one slip: the comparison must find every one, and cut the log short.

mod common;

use common::{Cut, compare, shrink};
use model::hub::{Hub, Ring};
use model::log::{Desk, LARGEST_TOTAL, Player};
use model::random_log::Logs;

/// Plays random logs until the slip shows, prints what is left of the log and checks that it is short.
fn is_found<A, M>(name: &str, longest: usize, cut: Cut, make: M)
where
    A: FnMut(&[u8], &mut Vec<u8>),
    M: Fn() -> Player<A>,
{
    let plays = |pieces: &[&[u8]]| {
        let mut player = make();
        let mut written = Vec::new();
        pieces.iter().for_each(|piece| player.feed(piece, &mut written));
        player.end(&mut written);
        Ok(written)
    };
    must_be_found(name, longest, cut, &plays);
}

fn must_be_found(name: &str, longest: usize, cut: Cut, plays: common::Plays<'_>) {
    let mut logs = Logs::new(5, 64);
    let wrong = (0..100).map(|_| logs.next(2_000)).find(|made| compare(plays, made, cut).is_err());
    let failure = shrink(plays, wrong.unwrap_or_else(|| panic!("{name}: not found")), cut);
    println!("{name}: {}\n", failure.text);
    assert!(failure.made.records.len() <= longest, "{name}: {}", failure.text);
    assert!(compare(plays, &failure.made, cut).is_err(), "{name}: the cut log fails by itself");
}

type Answering = Box<dyn FnMut(&[u8], &mut Vec<u8>)>;

/// The right answer on the desk, then something else: the record, what was written for it, and the desk.
fn wrong_answer(slip: fn(&[u8], &mut Vec<u8>, &mut Desk)) -> impl Fn() -> Player<Answering> {
    move || {
        let mut desk = Desk::default();
        Player::new(Box::new(move |record: &[u8], written: &mut Vec<u8>| {
            let mut own = Vec::new();
            desk.answer(record, &mut own);
            slip(record, &mut own, &mut desk);
            written.extend(own);
        }))
    }
}

#[test]
fn answers_without_deliveries() {
    is_found(
        "no delivery is written",
        10,
        Cut::Whole,
        wrong_answer(|_, own, _| {
            if own[0] == 0x81 {
                own.truncate(1);
            }
        }),
    );
}

#[test]
fn writes_only_the_first_delivery() {
    is_found(
        "only the first delivery is written",
        15,
        Cut::Whole,
        wrong_answer(|_, own, _| {
            if own[0] == 0x81 {
                own.truncate(18);
            }
        }),
    );
}

#[test]
fn swaps_the_fields_of_a_delivery() {
    is_found(
        "a delivery has its vector before its target",
        10,
        Cut::Whole,
        wrong_answer(|_, own, _| {
            if own[0] == 0x81 {
                own[1..].as_chunks_mut::<17>().0.iter_mut().for_each(|delivery| delivery[1..5].rotate_left(2));
            }
        }),
    );
}

#[test]
fn ignores_one_shot() {
    is_found(
        "one-shot does not clear",
        14,
        Cut::Whole,
        wrong_answer(|_, _, desk| {
            for ring in &desk.rings {
                if let Ring::Delivered(delivery, true) = ring {
                    desk.hub.peers[delivery.target.0 as usize].interrupt = 1;
                }
            }
        }),
    );
}

#[test]
fn takes_a_body_for_shorter_or_longer() {
    for kind in 0..12 {
        for (name, other) in [("short", usize::MAX), ("long", 1)] {
            is_found(&format!("the body of kind {kind:02X} is a byte too {name}"), 3, Cut::Whole, || {
                let mut player = wrong_answer(|_, _, _| {})();
                player.bodies[kind] = player.bodies[kind].wrapping_add(other);
                let mut right = player.answer;
                player.answer = Box::new(move |record, written| {
                    // What is missing is taken for 0.
                    let mut record = record.to_vec();
                    record.resize(record.len().max(39), 0);
                    right(&record, written);
                });
                player
            });
        }
    }
}

#[test]
fn keeps_the_hub_of_a_refused_set_up() {
    is_found("a refused set-up leaves the hub", 3, Cut::Whole, || {
        let mut desk = Desk::default();
        Player::new(move |record: &[u8], written: &mut Vec<u8>| {
            let before = desk.hub.clone();
            desk.answer(record, written);
            if record[0] == 0 && desk.hub == Hub::NONE {
                desk.hub = before;
            }
        })
    });
}

#[test]
fn keeps_the_region_of_an_earlier_hub() {
    is_found("a set-up leaves the region", 6, Cut::Whole, || {
        let mut desk = Desk::default();
        Player::new(move |record: &[u8], written: &mut Vec<u8>| {
            let before = desk.region.clone();
            desk.answer(record, written);
            if record[0] == 0 {
                desk.region.iter_mut().zip(before).for_each(|(byte, old)| *byte = old);
            }
        })
    });
}

/// A set-up of this total is answered with the other byte.
fn answers_total(name: &str, total: u128, answer: &'static [u8]) {
    is_found(name, 1, Cut::Whole, || {
        let mut desk = Desk::default();
        Player::new(move |record: &[u8], written: &mut Vec<u8>| {
            let mut own = Vec::new();
            desk.answer(record, &mut own);
            let number = |at: usize, bytes: usize| {
                record[at..at + bytes].iter().rev().fold(0_u128, |number, byte| number << 8 | u128::from(*byte))
            };
            let exact = record[0] == 0 && number(5, 4) + number(9, 8) + number(1, 2) * number(17, 8) == total;
            written.extend(if exact { answer } else { &own });
        })
    });
}

#[test]
fn takes_another_total() {
    answers_total("32768 bytes are refused", LARGEST_TOTAL, &[0x80, 1]);
    answers_total("36864 bytes are taken", LARGEST_TOTAL + 4096, &[0x81]);
}

#[test]
fn loads_a_byte_too_many() {
    is_found(
        "a load gives the byte behind too",
        5,
        Cut::Whole,
        wrong_answer(|record, own, desk| {
            if let (0x0a, [0x82, _, high, ..]) = (record[0], &mut own[..]) {
                let at = usize::from(record[3]) | usize::from(record[4]) << 8;
                *high = desk.region.get(at + 1).copied().unwrap_or_default();
            }
        }),
    );
}

#[test]
fn answers_the_wrong_refusal_without_a_hub() {
    is_found(
        "without a hub there is no such peer",
        1,
        Cut::Whole,
        wrong_answer(|_, own, _| {
            if own[..] == [0x80, 10] {
                own[1] = 3;
            }
        }),
    );
}

#[test]
fn loses_what_is_held_between_pieces() {
    let plays = |pieces: &[&[u8]]| {
        let mut player = model::log::player();
        let mut written = Vec::new();
        for piece in pieces {
            player.held.clear();
            player.feed(piece, &mut written);
        }
        player.end(&mut written);
        Ok(written)
    };
    must_be_found("a record that is cut is lost", 1, Cut::Bytes, &plays);
    must_be_found("a record that is cut is lost", 2, Cut::Pieces(1), &plays);
}

/// What the right player writes in the end is made something else: all that was written, and the log.
fn ends_wrongly(name: &str, longest: usize, slip: fn(&mut Vec<u8>, &[u8])) {
    let plays = |pieces: &[&[u8]]| {
        let mut player = model::log::player();
        let mut written = Vec::new();
        pieces.iter().for_each(|piece| player.feed(piece, &mut written));
        player.end(&mut written);
        slip(&mut written, &pieces.concat());
        Ok(written)
    };
    must_be_found(name, longest, Cut::Whole, &plays);
}

#[test]
fn ends_in_another_way() {
    ends_wrongly("a log that ends inside a record gives nothing", 0, |written, _| {
        written.pop_if(|last| *last == 0x84);
    });
    ends_wrongly("an unknown kind gives nothing", 0, |written, _| {
        written.pop_if(|last| *last == 0x85);
    });
    ends_wrongly("an unknown kind gives 84", 0, |written, _| {
        if let Some(last @ 0x85) = written.last_mut() {
            *last = 0x84;
        }
    });
    ends_wrongly("a log that ends with a record gives 84", 0, |written, log| {
        if ivshmem_log::records(log).all(|record| record.is_ok()) {
            written.push(0x84);
        }
    });
}
