//! The linked library against the model: random streams cut anywhere, and records that no reader has, with everything compared
//! after every call.

use std::io::Write;
use std::time::Instant;

use ivshmem_protocol::raw;
use protocol_model::compare;

#[test]
fn library_and_model_agree() {
    const MILLIONS: u64 = 2;
    let start = Instant::now();
    let counts = match compare::run(raw::read, 17, MILLIONS * 1_000_000) {
        Ok(counts) => counts,
        Err((failure, _)) => panic!("{failure}"),
    };
    // Printed past the test's capture, so that every run shows it.
    let _ = writeln!(std::io::stdout().lock(), "{counts}{:.1} s", start.elapsed().as_secs_f64());

    // Every message, every refusal with what alone causes it, every step's closes, every cut, and nothing that can't be.
    assert_eq!(counts.gaps(MILLIONS), Vec::<String>::new());
}
