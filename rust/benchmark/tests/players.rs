//! The players that the program is timed beside write what the model writes.

use std::io::{Read, Write};
use std::process::{Command, Stdio};
use std::thread;

use benchmark::players::PLAYERS;
use model::random_log::Logs;

#[test]
fn players_agree_with_the_model() {
    let made = Logs::new(4, 64).next(50_000);
    let log = made.records.concat();
    let mut expected = Vec::new();
    model::log::player().feed(&log, &mut expected);
    for player in PLAYERS {
        let mut child = Command::new(env!("CARGO_BIN_EXE_playback"))
            .args(["--play", player])
            .stdin(Stdio::piped())
            .stdout(Stdio::piped())
            .spawn()
            .expect("the program should start");
        let (mut input, mut output) = (child.stdin.take().expect("a pipe"), child.stdout.take().expect("a pipe"));
        let mut written = Vec::new();
        thread::scope(|scope| {
            scope.spawn(|| {
                input.write_all(&log).expect("room in the pipe");
                drop(input);
            });
            output.read_to_end(&mut written).expect("output");
        });
        assert!(child.wait().expect("an end").success(), "{player}");
        assert!(written == expected, "{player} does not write what the model writes");
    }
}
