//! The linked library alone: the same stream cut in two ways has the same messages, and leaves the same.

use std::io::Write;
use std::time::Instant;

use ivshmem_protocol::raw;
use protocol_model::cutting;
use protocol_model::generate::{Generator, Stream};
use protocol_model::reader::State;

#[test]
fn cutting_changes_nothing() {
    let start = Instant::now();
    let [messages, pieces] = cutting::run(raw::read, 1, 4_000_000).unwrap_or_else(|text| panic!("{text}"));
    let seconds = start.elapsed().as_secs_f64();
    // Printed past the test's capture, so that every run shows it.
    let _ = writeln!(std::io::stdout().lock(), "cutting: {messages} messages, {pieces} pieces, {seconds:.1} s");
    assert!(messages >= 400_000, "{messages}");
    assert!(pieces >= 1_000_000, "{pieces}");
}

/// Every place of some streams, with one cut there and with two.
#[test]
fn every_cut() {
    let mut generator = Generator::new(2);
    let mut cuts = 0;
    while cuts < 20_000 {
        let Stream { vectors, mut bytes } = generator.stream();
        bytes.truncate(60);
        let whole = cutting::outcome(raw::read, &State::start(), vectors, &[&bytes]);
        for (one, two) in (0..=bytes.len()).flat_map(|one| (one..=bytes.len()).map(move |two| (one, two))) {
            let pieces = [&bytes[..one], &bytes[one..two], &bytes[two..]];
            assert_eq!(cutting::outcome(raw::read, &State::start(), vectors, &pieces), whole);
            cuts += 1;
        }
    }
}

/// The reader of the wrapper comes to the same as plain calls.
#[test]
fn wrapped_reader() {
    let mut generator = Generator::new(3);
    let mut messages = 0;
    while messages < 100_000 {
        let Stream { vectors, bytes } = generator.stream();
        let plain = cutting::outcome(raw::read, &State::start(), vectors, &[&bytes]).expect("a stream");
        let (count, state) = cutting::wrapped(vectors, &generator.cut(&bytes));
        assert_eq!((count, state), (plain.messages.len(), plain.state));
        messages += count;
    }
}
