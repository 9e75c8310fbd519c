//! The yardsticks of the server's side of the old protocol answer and write as the library does.

use benchmark::plain_server::{BY_BITS, PLAIN};
use benchmark::{server_messages, stack};
use protocol_model::server::compare;
use protocol_model::server::count::LEAST;

/// In random histories and from made-up states, with everything compared after every call. The model is held to the library by
/// the tests of its own crate.
#[test]
fn plain_servers_agree_with_the_model() {
    for side in [PLAIN, BY_BITS] {
        let counts = match compare::run(&side, 19, 50_000) {
            Ok(counts) => counts,
            Err((failure, _)) => panic!("{failure}"),
        };
        // Full and empty servers, and every refusal with what it comes before.
        assert_eq!(counts.seen.missing(&LEAST), Vec::<&str>::new());
    }
}

/// Every row of the table.
#[test]
fn yardsticks_agree_with_the_library() {
    let cases = server_messages::cases();
    cases.iter().for_each(server_messages::check);
    assert_eq!(cases.len(), 20);
}

#[test]
#[cfg(all(target_arch = "x86_64", unix))]
fn stack_of_the_server() {
    let depths = stack::server_depths();
    assert_eq!(depths.len(), 3);
    for depth in depths {
        println!("stack, {}: {} bytes", depth.name, depth.bytes);
        assert!(depth.bytes > 0);
    }
}
