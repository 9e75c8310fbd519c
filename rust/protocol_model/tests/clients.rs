//! The linked library alone, the server's calls and the reader's: what a server sends tells each client who is joined.

use std::io::Write;
use std::time::Instant;

use ivshmem_protocol::{BUFFER_BYTES, IDS, Reader, Refusal, SentMessages, Server};
use protocol_model::Serving;
use protocol_model::generate::Generator;
use protocol_model::server::generate::History;
use protocol_model::server::{Act, clients};

#[test]
fn readers_know_who_is_joined() {
    let start = Instant::now();
    let heard = clients::run(&Serving::LIBRARY, 18, 100_000).unwrap_or_else(|text| panic!("{text}"));
    let seconds = start.elapsed().as_secs_f64();
    // Printed past the test's capture, so that every run shows it.
    let _ = writeln!(std::io::stdout().lock(), "clients: {heard}, {seconds:.1} s");
    assert!(heard.records >= 18_000_000 && heard.pieces >= 60_000_000, "{heard:?}");
    assert!(heard.checked >= 100_000 && heard.left >= 26_000, "{heard:?}");
    assert!(heard.again >= 18_000 && heard.filled >= 900, "{heard:?}");
}

/// The readers of a server's clients answer each message as the wrapper names it.
fn hear(messages: SentMessages<'_>, readers: &mut [Option<Reader>]) -> usize {
    let count = messages.len();
    for sent in messages {
        let reader = readers[usize::from(sent.client)].as_mut().expect("a client that is joined");
        assert_eq!(reader.read(&sent.record).message, sent.message);
        assert_eq!(sent.descriptor().is_some(), sent.record[0] == 1);
    }
    count
}

/// The wrapper's server comes to the same as plain calls, and names each message as its client does.
#[test]
fn wrapped_server() {
    let mut generator = Generator::new(19);
    let [mut plain, mut wrapped] = [[0; BUFFER_BYTES]; 2];
    let mut messages = 0;
    while messages < 2_000_000 {
        let mut server = Server::new(generator.vectors()).expect("a number of vectors");
        let (mut readers, mut history) = (vec![None; IDS], History::new(&mut generator));
        while let Some(act) = history.next(&mut generator, server.to_raw()) {
            let answer = Serving::LIBRARY.serve(server.to_raw(), act, &mut plain);
            let sent = match act {
                Act::Join => server.join(&mut wrapped).map(|joined| {
                    assert_eq!(u32::from(joined.id), answer.id);
                    readers[usize::from(joined.id)] = Reader::new(answer.server.vectors).ok();
                    joined.messages
                }),
                Act::Leave(id) => {
                    let id = u8::try_from(id).unwrap_or(u8::MAX);
                    server.leave(id, &mut wrapped).inspect(|_| readers[usize::from(id)] = None)
                }
            };
            let sent = sent.map(|sent| hear(sent, &mut readers)).map_err(Refusal::number);
            assert_eq!((sent.unwrap_or_default(), sent.err().unwrap_or_default()), (answer.messages, answer.number));
            assert_eq!(server.to_raw(), answer.server);
            assert!(plain == wrapped);
            messages += answer.messages;
        }
    }
}
