//! The crate against `include/ivshmem_protocol.h`: every constant, text, field and function of the one is in the other.

use std::collections::BTreeMap;

use ivshmem_protocol::raw::{Answer, Progress, Served, Server, Started};
use ivshmem_protocol::{Due, Message, Refusal};

const HEADER: &str = include_str!("../../../include/ivshmem_protocol.h");
const BOUNDARY: &str = include_str!("../src/boundary.rs");

/// The header without its comments.
fn header() -> String {
    let mut parts = HEADER.split("/*");
    let first = parts.next().unwrap_or_default().to_string();
    parts.fold(first, |text, part| text + part.split_once("*/").expect("a comment's end").1)
}

/// The header's numbers by their names without the prefix: of its defines and of its enums.
fn numbers() -> BTreeMap<String, u64> {
    let header = header();
    let defined = header.lines().filter_map(|line| line.strip_prefix("#define ")?.split_once(' '));
    let listed = header.lines().filter_map(|line| line.trim().trim_end_matches([' ', ',']).split_once(" = "));
    let named = defined.chain(listed).filter_map(|(name, value)| {
        Some((name.strip_prefix("IVSHMEM_PROTOCOL_")?.to_string(), value.trim().trim_end_matches(',').parse().ok()?))
    });
    named.collect()
}

/// The crate's numbers under the header's names.
fn crate_numbers() -> BTreeMap<String, u64> {
    let mut version = ivshmem_protocol::VERSION.split('.').map(|part| part.parse().expect("a number"));
    let all = [
        ("VERSION_MAJOR", version.next().unwrap()),
        ("VERSION_MINOR", version.next().unwrap()),
        ("VERSION_PATCH", version.next().unwrap()),
        ("INTERFACE", ivshmem_protocol::INTERFACE.into()),
        ("IDS", ivshmem_protocol::IDS as u64),
        ("MAX_VECTORS", ivshmem_protocol::MAX_VECTORS),
        ("RECORD_BYTES", ivshmem_protocol::RECORD_BYTES as u64),
        ("HELD_BYTES", ivshmem_protocol::HELD_BYTES as u64),
        ("SENT_BYTES", ivshmem_protocol::SENT_BYTES as u64),
        ("MAX_SENT", ivshmem_protocol::MAX_SENT as u64),
        ("BUFFER_BYTES", ivshmem_protocol::BUFFER_BYTES as u64),
        ("ACCEPTED", 0),
    ];
    let mut all: BTreeMap<String, u64> = all.into_iter().map(|(name, value)| (name.into(), value)).collect();
    all.extend(Refusal::ALL.map(|refusal| (shouted(refusal), refusal.number().into())));
    all.extend(Due::ALL.map(|due| (format!("DUE_{}", shouted(due)), due.number().into())));
    all.extend(messages().into_iter().map(|(number, message)| (message_name(message), number.into())));
    all
}

/// The messages that have a name, of many numbers.
fn messages() -> Vec<(u32, Message)> {
    let named = |message| Answer { message, ..Answer::default() }.result().expect("no refusal").message;
    let all = (0..=100).map(|number| (number, named(number)));
    all.filter(|(_, message)| !matches!(message, Message::Unknown { .. })).collect()
}

fn message_name(message: Message) -> String {
    format!("MESSAGE_{}", shouted(message))
}

/// A name of Rust's, without what is in the value, as the header writes it.
fn shouted(value: impl std::fmt::Debug) -> String {
    let printed = format!("{value:?}");
    let parts = printed.char_indices().take_while(|(_, letter)| letter.is_alphabetic()).flat_map(|(at, letter)| {
        let apart = (at > 0 && letter.is_uppercase()).then_some('_');
        apart.into_iter().chain([letter.to_ascii_uppercase()])
    });
    parts.collect()
}

#[test]
fn constants() {
    assert_eq!(numbers(), crate_numbers());
    assert_eq!(messages().len(), 8);
}

#[test]
fn versions() {
    let version = format!("\n#define IVSHMEM_PROTOCOL_VERSION \"{}\"\n", ivshmem_protocol::VERSION);
    assert!(header().contains(&version));
    assert!(BOUNDARY.contains(&format!("= ivshmem_protocol_interface_{};", ivshmem_protocol::INTERFACE)));
    assert!(header().contains(&format!(" ivshmem_protocol_interface_{}(void);", ivshmem_protocol::INTERFACE)));
}

#[test]
fn texts() {
    let header = header();
    let texts: BTreeMap<_, _> = header
        .lines()
        .filter_map(|line| {
            let (name, text) = line.trim().strip_prefix("case IVSHMEM_PROTOCOL_")?.split_once(": return \"")?;
            Some((name.to_string(), text.trim_end_matches("\";").to_string()))
        })
        .filter(|(name, _)| name != "ACCEPTED")
        .collect();
    let reasons = Refusal::ALL.map(|refusal| (shouted(refusal), refusal.reason().to_string()));
    let meanings = messages().into_iter().map(|(_, message)| (message_name(message), message.text().to_string()));
    assert_eq!(texts, reasons.into_iter().chain(meanings).collect());
    let unknown = Message::Unknown { message: 8, id: 0, count: 0 };
    for text in [Refusal::Unknown(3).reason(), unknown.text()] {
        assert!(header.contains(&format!("default: return \"{text}\";")), "{text}");
    }
}

/// The names of the fields, in their order, of the struct and of the record of it that is printed.
#[test]
fn fields() {
    let progress = format!("{:?}", Progress::default());
    let answer = format!("{:?}", Answer::default()).replace(&progress, "");
    let server = format!("{:?}", Server::default());
    let started = format!("{:?}", Started::default()).replace(&server, "");
    let served = format!("{:?}", Served::default()).replace(&server, "");
    let header = header();
    for (name, printed, count) in [
        ("progress", progress, 4),
        ("answer", answer, 6),
        ("server", server, 2),
        ("started", started, 2),
        ("served", served, 4),
    ] {
        let (_, body) = header.split_once(&format!("typedef struct ivshmem_protocol_{name} {{")).expect("the struct");
        let (body, _) = body.split_once('}').expect("its end");
        let names = body.split(';').filter_map(|field| field.split_whitespace().nth(1)?.split('[').next());
        let declared: Vec<_> = names.collect();
        let (_, inside) = printed.split_once('{').expect("fields");
        let written: Vec<_> =
            inside.split(',').filter_map(|field| field.split_once(':').map(|(name, _)| name.trim())).collect();
        assert_eq!(declared, written, "{name}");
        assert_eq!(declared.len(), count, "{name}");
    }
}

/// What stands between a function's name and the end of its arguments, wherever it is declared in a text.
fn arguments<'a>(text: &'a str, before: &str, name: &str) -> Vec<&'a str> {
    let declared = format!("{before}ivshmem_protocol_{name}(");
    text.split(&declared).skip(1).map(|behind| behind.split_once(')').expect("the arguments' end").0).collect()
}

/// Every function that the header declares is declared with as many arguments of the same names, and each call has its raw form.
#[test]
fn functions() {
    let header = header().split_whitespace().collect::<Vec<_>>().join(" ");
    let calls = [("read", 6), ("start", 1), ("join", 3), ("leave", 4)];
    for (name, count) in calls {
        let [arguments] = arguments(&header, " ", name)[..] else { panic!("{name} is not declared once") };
        let names =
            arguments.split(',').filter_map(|argument| argument.rsplit([' ', '*']).find(|name| !name.is_empty()));
        let [ours] = self::arguments(BOUNDARY, "    fn ", name)[..] else { panic!("{name} is not declared here") };
        let ours = ours.split(',').filter_map(|argument| Some(argument.split_once(':')?.0.trim()));
        let names: Vec<_> = names.collect();
        assert_eq!(names, ours.collect::<Vec<_>>(), "{name}");
        assert_eq!(names.len(), count, "{name}");
        assert!(BOUNDARY.contains(&format!("\npub fn {name}(")), "{name} has no raw form");
    }
    assert_eq!(BOUNDARY.matches("    fn ivshmem_protocol_").count(), calls.len() + 1, "the calls and the guard");
    assert_eq!(header.matches("IVSHMEM_PROTOCOL_MUST_USE ivshmem_protocol_").count(), calls.len());
}
