//! Wrong readers, each with one slip: the comparison must find every one, and those that a cut shows must be found by cutting
//! too.

use ivshmem_protocol::raw::{self, Answer, Progress};
use protocol_model::Reading;
use protocol_model::compare::{self, Call};
use protocol_model::cutting;
use protocol_model::reader::{CLOSED, ID_DUE, MEMORY_DUE, PEERS, State, VERSION_DUE, ended_record, read};

/// Reads until the slip shows, and prints the call that shows it. The library answers that call rightly.
fn is_found(name: &str, wrong: Reading) {
    let Err((failure, records)) = compare::run(wrong, 3, 200_000) else { panic!("{name}: not found") };
    println!("{name}: found after {records} records\n{failure}\n");
    let call = Call { state: &failure.state, vectors: failure.vectors, input: &failure.input };
    assert!(compare::call(wrong, &call).is_err(), "{name}: the call fails by itself");
    assert!(compare::call(raw::read, &call).is_ok(), "{name}: the library does not make this slip");
}

/// A slip that a cut shows, without the model.
fn is_found_by_a_cut(name: &str, wrong: Reading) {
    is_found(name, wrong);
    assert!(cutting::run(wrong, 3, 200_000).is_err(), "{name}: no cut shows it");
}

/// Kind and number of the record that the call ends, if it ends one.
fn ended(progress: Progress, counts: &[u8], vectors: u64, input: &[u8]) -> Option<(u8, i64)> {
    ended_record(&State { progress, counts: counts.to_vec() }, vectors, input)
}

/// The right answer to another record in the place of the one that the call ends.
fn instead(progress: Progress, counts: &mut [u8], vectors: u64, kind: u8, number: i64) -> Answer {
    let input = [&[kind][..], &number.to_le_bytes()].concat();
    let answer = read(Progress { held: 0, ..progress }, counts, vectors, &input);
    Answer { taken: 9 - progress.held, ..answer }
}

/// The answer of a reader that closes here.
fn closing(progress: Progress, taken: usize) -> Answer {
    let progress = Progress { due: CLOSED, held: 0, bytes: [0; 8], ..progress };
    Answer { message: 7, taken, progress, ..Answer::default() }
}

#[test]
fn closes_wrongly() {
    is_found("a reader never closes", |progress, counts, vectors, input| {
        let mut answer = read(progress, counts, vectors, input);
        if answer.message == 7 {
            answer.progress.due = progress.due;
        }
        answer
    });
    is_found("the own id is lost at a close", |progress, counts, vectors, input| {
        let mut answer = read(progress, counts, vectors, input);
        if answer.message == 7 {
            answer.progress.own = 0;
        }
        answer
    });
    is_found("the counts are lost at a close", |progress, counts, vectors, input| {
        let answer = read(progress, counts, vectors, input);
        if answer.message == 7 {
            counts.fill(0);
        }
        answer
    });
    is_found_by_a_cut("another kind closes at once", |progress, counts, vectors, input| {
        let answer = read(progress, counts, vectors, input);
        let more = (answer.number, answer.message) == (0, 0) && answer.progress.held > 0;
        if more && answer.progress.bytes[0] > 1 { closing(progress, answer.taken) } else { answer }
    });
    is_found_by_a_cut("a closed reader waits for no record", |progress, counts, vectors, input| {
        let answer = read(progress, counts, vectors, input);
        let more = (answer.number, answer.message) == (0, 0) && !input.is_empty();
        if more && progress.due == CLOSED { closing(progress, answer.taken) } else { answer }
    });
}

#[test]
fn holds_wrongly() {
    is_found_by_a_cut("held bytes are lost", |progress, counts, vectors, input| {
        let answer = read(progress, counts, vectors, input);
        if answer.message == 0 { Answer { progress, ..answer } } else { answer }
    });
    is_found_by_a_cut("the bytes taken include those held", |progress, counts, vectors, input| {
        let mut answer = read(progress, counts, vectors, input);
        if answer.message != 0 {
            answer.taken = 9;
        }
        answer
    });
    is_found("held bytes are not cleared behind a record", |progress, counts, vectors, input| {
        let mut answer = read(progress, counts, vectors, input);
        if answer.message != 0 {
            answer.progress.bytes = progress.bytes;
        }
        answer
    });
    is_found("more clears the bytes behind those held", |progress, counts, vectors, input| {
        let mut answer = read(progress, counts, vectors, input);
        if answer.number == 0 {
            answer.progress.bytes[answer.progress.held..].fill(0);
        }
        answer
    });
    is_found_by_a_cut("a call reads to the last record", |progress, counts, vectors, input| {
        let mut answer = read(progress, counts, vectors, input);
        while answer.message != 0 && input.len() - answer.taken >= 9 {
            let next = read(answer.progress, counts, vectors, &input[answer.taken..]);
            answer = Answer { taken: answer.taken + next.taken, ..next };
        }
        answer
    });
}

#[test]
fn counts_wrongly() {
    is_found("an extra vector is counted in the answer", |progress, counts, vectors, input| {
        let mut answer = read(progress, counts, vectors, input);
        answer.count += u32::from(answer.message == 5);
        answer
    });
    is_found("an extra vector is counted in the buffer", |progress, counts, vectors, input| {
        let answer = read(progress, counts, vectors, input);
        if answer.message == 5 {
            counts[answer.id as usize] += 1;
        }
        answer
    });
    is_found("one vector more than configured is counted", |progress, counts, vectors, input| {
        let mut answer = read(progress, counts, vectors, input);
        if answer.message == 5 {
            counts[answer.id as usize] += 1;
            (answer.message, answer.count) = (4, answer.count + 1);
        }
        answer
    });
    is_found("the own vectors are not counted", |progress, counts, vectors, input| {
        let answer = read(progress, counts, vectors, input);
        if answer.message == 4 && answer.id == progress.own {
            counts[answer.id as usize] -= 1;
        }
        answer
    });
}

#[test]
fn removes_wrongly() {
    is_found("a disconnect takes one vector", |progress, counts, vectors, input| {
        let before = counts.to_vec();
        let answer = read(progress, counts, vectors, input);
        if answer.message == 6 {
            counts[answer.id as usize] = before[answer.id as usize] - 1;
        }
        answer
    });
    is_found("a disconnect answers the vectors that were", |progress, counts, vectors, input| {
        let before = counts.to_vec();
        let mut answer = read(progress, counts, vectors, input);
        if answer.message == 6 {
            answer.count = before[answer.id as usize].into();
        }
        answer
    });
}

#[test]
fn takes_what_is_not_in_place() {
    is_found("a version with a descriptor is taken", |progress, counts, vectors, input| {
        match (progress.due, ended(progress, counts, vectors, input)) {
            (VERSION_DUE, Some((1, 0))) => instead(progress, counts, vectors, 0, 0),
            _ => read(progress, counts, vectors, input),
        }
    });
    is_found("id 64 is taken", |progress, counts, vectors, input| {
        if progress.due != ID_DUE || ended(progress, counts, vectors, input) != Some((0, 64)) {
            return read(progress, counts, vectors, input);
        }
        let mut answer = instead(progress, counts, vectors, 0, 63);
        (answer.id, answer.progress.own) = (64, 64);
        answer
    });
    is_found("memory without a descriptor is taken", |progress, counts, vectors, input| {
        match (progress.due, ended(progress, counts, vectors, input)) {
            (MEMORY_DUE, Some((0, -1))) => instead(progress, counts, vectors, 1, -1),
            _ => read(progress, counts, vectors, input),
        }
    });
    is_found("every kind but 0 has a descriptor", |progress, counts, vectors, input| {
        match ended(progress, counts, vectors, input) {
            Some((2.., number)) => instead(progress, counts, vectors, 1, number),
            _ => read(progress, counts, vectors, input),
        }
    });
}

#[test]
fn lets_peers_leave_wrongly() {
    is_found("the own id leaves", |progress, counts, vectors, input| {
        let own = i64::from(progress.own);
        if progress.due != PEERS || ended(progress, counts, vectors, input) != Some((0, own)) {
            return read(progress, counts, vectors, input);
        }
        let other = Progress { own: (progress.own + 1) % 64, ..progress };
        let mut answer = instead(other, counts, vectors, 0, own);
        answer.progress.own = progress.own;
        answer
    });
    is_found("a peer without vectors leaves", |progress, counts, vectors, input| {
        let Some((0, id @ 0..64)) = ended(progress, counts, vectors, input) else {
            return read(progress, counts, vectors, input);
        };
        if progress.due == PEERS && id != i64::from(progress.own) {
            counts[id as usize] = counts[id as usize].max(1);
        }
        read(progress, counts, vectors, input)
    });
}

#[test]
fn reads_numbers_wrongly() {
    is_found("the number has no sign", |progress, counts, vectors, input| {
        let answer = read(progress, counts, vectors, input);
        if answer.message == 3 { closing(progress, answer.taken) } else { answer }
    });
    is_found("the number is cut to 8 bits", |progress, counts, vectors, input| {
        match ended(progress, counts, vectors, input) {
            Some((kind, number)) => instead(progress, counts, vectors, kind, (number as i8).into()),
            None => read(progress, counts, vectors, input),
        }
    });
    is_found("the number is cut to 32 bits", |progress, counts, vectors, input| {
        match ended(progress, counts, vectors, input) {
            Some((kind, number)) => instead(progress, counts, vectors, kind, (number as i32).into()),
            None => read(progress, counts, vectors, input),
        }
    });
    is_found("the number has its highest byte first", |progress, counts, vectors, input| {
        match ended(progress, counts, vectors, input) {
            Some((kind, number)) => instead(progress, counts, vectors, kind, number.swap_bytes()),
            None => read(progress, counts, vectors, input),
        }
    });
}

#[test]
fn refuses_wrongly() {
    is_found("17 vectors are taken", |progress, counts, vectors, input| {
        read(progress, counts, if vectors == 17 { 16 } else { vectors }, input)
    });
    is_found("the configured number is cut to 32 bits", |progress, counts, vectors, input| {
        read(progress, counts, vectors & 0xffff_ffff, input)
    });
    is_found("the length is looked at before the vectors", |progress, counts, vectors, input| {
        let mut answer = read(progress, counts, vectors, input);
        if answer.number == 1 && counts.len() != 64 {
            answer.number = 2;
        }
        answer
    });
    is_found("the progress is looked at before the length", |progress, counts, vectors, input| {
        let mut answer = read(progress, counts, vectors, input);
        if answer.number == 2 && progress.due > CLOSED {
            answer.number = 10;
        }
        answer
    });
    is_found("a longer buffer is taken", |progress, counts, vectors, input| {
        let length = counts.len().min(64);
        read(progress, &mut counts[..length], vectors, input)
    });
}

#[test]
fn changes_what_it_refuses() {
    is_found("a refused call holds nothing any more", |progress, counts, vectors, input| {
        let mut answer = read(progress, counts, vectors, input);
        if answer.number == 10 {
            answer.progress.held = 0;
        }
        answer
    });
    is_found("a refused call has taken its input", |progress, counts, vectors, input| {
        let mut answer = read(progress, counts, vectors, input);
        if answer.number != 0 {
            answer.taken = input.len();
        }
        answer
    });
}

#[test]
fn takes_records_that_no_reader_has() {
    is_found("an unknown step is closed", |progress, counts, vectors, input| {
        let answer = read(Progress { due: progress.due.min(CLOSED), ..progress }, counts, vectors, input);
        if answer.number == 0 { answer } else { Answer { progress, ..answer } }
    });
    is_found("the step is cut to 8 bits", |progress, counts, vectors, input| {
        let answer = read(Progress { due: progress.due & 0xff, ..progress }, counts, vectors, input);
        if answer.number == 0 { answer } else { Answer { progress, ..answer } }
    });
    is_found("nine held bytes are taken for eight", |progress, counts, vectors, input| {
        let answer = read(
            Progress { held: if progress.held == 9 { 8 } else { progress.held }, ..progress },
            counts,
            vectors,
            input,
        );
        if answer.number == 0 { answer } else { Answer { progress, ..answer } }
    });
    is_found("an own id is taken while the id is due", |progress, counts, vectors, input| {
        if progress.due != ID_DUE || progress.own > 63 {
            return read(progress, counts, vectors, input);
        }
        let mut answer = read(Progress { own: 0, ..progress }, counts, vectors, input);
        if answer.message != 2 {
            answer.progress.own = progress.own;
        }
        answer
    });
}

#[test]
fn takes_counts_that_no_reader_has() {
    is_found("counts are taken while the memory is due", |progress, counts, vectors, input| {
        if progress.due != MEMORY_DUE || counts.iter().any(|&count| u64::from(count) > vectors) {
            return read(progress, counts, vectors, input);
        }
        read(progress, &mut counts.iter().map(|_| 0).collect::<Vec<_>>(), vectors, input)
    });
    is_found("the last count is not looked at", |progress, counts, vectors, input| {
        let last = counts.last().copied().unwrap_or_default();
        let is_above = u64::from(last) > vectors && counts.len() == 64;
        if !is_above {
            return read(progress, counts, vectors, input);
        }
        counts[63] = 0;
        let answer = read(progress, counts, vectors, input);
        counts[63] = last;
        answer
    });
    is_found("a closed reader's counts are not looked at", |progress, counts, vectors, input| {
        if progress.due != CLOSED || counts.len() != 64 {
            return read(progress, counts, vectors, input);
        }
        read(progress, &mut [0; 64], vectors, input)
    });
}
