//! One-shot mode on the linked library: over every stretch of random histories in which a peer has it on, the balance of
//! interrupts and the peer's own stores to Interrupt Control. It is proved; this checks the same across the boundary.

use std::io::Write;
use std::time::Instant;

use model::one_shot;
use model::subject::Library;

#[test]
fn interrupts_balance_own_stores() {
    const CALLS: u64 = 4_000_000;
    let start = Instant::now();
    let tally = match one_shot::run(|| Library, 19, CALLS) {
        Ok(tally) => tally,
        Err(text) => panic!("{text}"),
    };
    // Printed past the test's capture, so that every run shows it.
    let _ = writeln!(std::io::stdout().lock(), "{tally}\n{:.1} s", start.elapsed().as_secs_f64());
    assert!(tally.stretches >= 40_000);
    assert!(tally.checks >= 10_000_000);
    assert!(tally.interrupts.iter().all(|&interrupts| interrupts >= 10_000));
    assert!(tally.lost >= 30_000);
    assert!(tally.sets >= 50_000);
    assert!(tally.clears >= 2_500);
    assert!(tally.refused >= 60_000);
    assert!(tally.reached.iter().all(|&stretches| stretches >= 3_000));
    // Without one-shot there is no such bound, so the check says something.
    assert!(tally.exceeded >= 40_000);
}
