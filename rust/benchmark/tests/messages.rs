//! The yardsticks of the reader of the old server's messages answer as the library does.

use benchmark::{messages, plain_reader, stack};
use protocol_model::compare;
use protocol_model::count::LEAST;

/// In random streams cut anywhere and from damaged states, with everything compared after every call. The model is held to the
/// library by the tests of its own crate.
#[test]
fn plain_reader_agrees_with_the_model() {
    let counts = match compare::run(plain_reader::read, 18, 100_000) {
        Ok(counts) => counts,
        Err((failure, _)) => panic!("{failure}"),
    };
    // Each message, each clause of 10 alone, and why each step closes.
    assert_eq!(counts.seen.missing(&LEAST), Vec::<&str>::new());
}

/// Every row of the table, on a shorter stream: library, plain reader and model leave the same at every call.
#[test]
fn yardsticks_agree_with_the_library() {
    let stream = messages::stream(20_000);
    for case in messages::cases(&stream) {
        let seen = messages::check(&case);
        if case.number == 0 && !case.empty {
            assert!((1..=6).all(|message| seen[message] > 0), "{}: {seen:?}", case.name);
        }
    }
}

#[test]
#[cfg(all(target_arch = "x86_64", unix))]
fn stack_of_the_reader() {
    let depths = stack::reader_depths();
    assert_eq!(depths.len(), 1);
    println!("stack, {}: {} bytes", depths[0].name, depths[0].bytes);
    assert!(depths[0].bytes > 0);
}
