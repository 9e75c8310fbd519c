//! The linked library against the model: random histories of all calls, everything compared after every call.

use std::io::Write;
use std::time::Instant;

use model::compare;
use model::subject::Library;

#[test]
fn library_and_model_agree() {
    const CALLS: u64 = 5_000_000;
    let start = Instant::now();
    let counts = match compare::run(|| Library, 20, CALLS) {
        Ok(counts) => counts,
        Err(failure) => panic!("{failure}"),
    };
    // Printed past the test's capture, so that every run shows it.
    let _ = writeln!(std::io::stdout().lock(), "{counts}\n{:.1} s", start.elapsed().as_secs_f64());

    // Every answer that a call can give, every switch that alone stops a ring, the edges of the sizes and of the base, words of
    // wrong numbers, and nothing that can't be.
    assert_eq!(counts.gaps(140), Vec::<String>::new());
    for accepted in counts.calls.map(|kind| kind[0]) {
        assert!(accepted >= 11_400, "{accepted} calls of a kind accepted");
    }
    assert!(counts.delivered >= 285_000);
    assert!(counts.one_shot >= 28_500);
    assert!(counts.several >= 28_500);
    assert!(counts.lost_alone.iter().all(|&rings| rings >= 4_300));
    // Of 63 numbers of peers by 16 of vectors.
    assert!(counts.hubs.len() >= 940);
}
