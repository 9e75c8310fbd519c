//! The linked library's joins and leaves against the model: random histories, and states, buffers and ids that are made up, with
//! everything compared after every call.

use std::io::Write;
use std::time::Instant;

use protocol_model::Serving;
use protocol_model::server::compare;

#[test]
fn library_and_model_agree() {
    const MILLIONS: u64 = 1;
    let start = Instant::now();
    let counts = match compare::run(&Serving::LIBRARY, 18, MILLIONS * 1_000_000) {
        Ok(counts) => counts,
        Err((failure, _)) => panic!("{failure}"),
    };
    // Printed past the test's capture, so that every run shows it.
    let _ = writeln!(std::io::stdout().lock(), "{counts}{:.1} s", start.elapsed().as_secs_f64());

    // Full and empty servers, ids that are taken again, every refusal with what it comes before, and nothing that can't be.
    assert_eq!(counts.gaps(MILLIONS), Vec::<String>::new());
}
