//! The crate against `include/ivshmem.h`: every constant, refusal, text, field and function of the one is in the other.

use std::collections::BTreeMap;

use ivshmem::configuration as c;
use ivshmem::{Refusal, Section, Settings, msix as m, raw, register as r};

const HEADER: &str = include_str!("../../../include/ivshmem.h");
const BOUNDARY: &str = include_str!("../src/boundary.rs");

/// The header without its comments.
fn header() -> String {
    let mut parts = HEADER.split("/*");
    let first = parts.next().unwrap_or_default().to_string();
    parts.fold(first, |text, part| text + part.split_once("*/").expect("a comment's end").1)
}

/// A number as the header writes it, and nothing where it is none.
fn number(text: &str) -> Option<u64> {
    match text.strip_prefix("0x") {
        Some(digits) => u64::from_str_radix(digits, 16).ok(),
        None => text.parse().ok(),
    }
}

/// The header's numbers by their names without the prefix: of its defines and of its enums.
fn numbers() -> BTreeMap<String, u64> {
    let header = header();
    let defined = header.lines().filter_map(|line| line.strip_prefix("#define ")?.split_once(' '));
    let listed = header.lines().filter_map(|line| line.trim().trim_end_matches([' ', ',']).split_once(" = "));
    let named = defined.chain(listed).filter_map(|(name, value)| {
        Some((name.strip_prefix("IVSHMEM_")?.to_string(), number(value.trim().trim_end_matches(','))?))
    });
    named.collect()
}

macro_rules! named {
    ($prefix:literal, $module:ident: $($name:ident)*) => {
        [$((concat!($prefix, stringify!($name)), u64::from($module::$name))),*]
    };
}

/// The crate's numbers under the header's names.
fn crate_numbers() -> BTreeMap<String, u64> {
    let mut version = ivshmem::VERSION.split('.').map(|part| number(part).expect("a number"));
    let mut all = vec![
        ("VERSION_MAJOR", version.next().unwrap()),
        ("VERSION_MINOR", version.next().unwrap()),
        ("VERSION_PATCH", version.next().unwrap()),
        ("INTERFACE", ivshmem::INTERFACE.into()),
        ("MAX_PEERS", ivshmem::MAX_PEERS as u64),
        ("MAX_VECTORS", ivshmem::MAX_VECTORS as u64),
        ("MIN_BASE", ivshmem::MIN_BASE),
        ("MAX_REGION_BYTES", ivshmem::MAX_REGION_BYTES as u64),
        ("CONFIGURATION_BYTES", ivshmem::CONFIGURATION_BYTES),
        ("REGISTER_BYTES", ivshmem::REGISTER_BYTES),
        ("MSIX_BYTES", ivshmem::MSIX_BYTES),
        ("ACCEPTED", 0),
    ];
    all.extend(named!("CONFIGURATION_", c: VENDOR_ID DEVICE_ID COMMAND STATUS REVISION PROTOCOL CLASS BAR0 BAR1));
    all.extend(named!("CONFIGURATION_", c: SUBSYSTEM_VENDOR SUBSYSTEM_ID CAPABILITIES VENDOR_CAPABILITY));
    all.extend(
        named!("CONFIGURATION_", c: PRIVILEGED_CONTROL STATE_TABLE_SIZE READ_WRITE_SIZE OUTPUT_SIZE BASE_ADDRESS),
    );
    all.extend(named!("CONFIGURATION_", c: MSIX_CAPABILITY MESSAGE_CONTROL MSIX_TABLE MSIX_PENDING));
    all.extend(
        named!("", c: COMMAND_MEMORY COMMAND_BUS_MASTER PRIVILEGED_ONE_SHOT MESSAGE_FUNCTION_MASK MESSAGE_ENABLE),
    );
    all.extend(named!("REGISTER_", r: ID MAXIMUM_PEERS INTERRUPT_CONTROL DOORBELL STATE));
    all.extend(named!("MSIX_", m: ADDRESS_LOW ADDRESS_HIGH DATA CONTROL ENTRY_BYTES PENDING));
    let mut all: BTreeMap<String, u64> = all.into_iter().map(|(name, value)| (name.into(), value)).collect();
    all.extend(Refusal::ALL.map(|refusal| (shouted(&format!("{refusal:?}")), refusal.number().into())));
    all.extend(kinds());
    all
}

/// The kinds of sections: the numbers that the crate gives a name, and 0.
fn kinds() -> Vec<(String, u64)> {
    let named = |kind| raw::SectionReply { kind, ..Default::default() }.result().map(|placement| placement.section);
    let kinds = (0..=100).filter_map(|kind| match named(kind).expect("no refusal") {
        Section::Unknown { kind: 0, .. } => Some(("NO_SECTION".into(), 0)),
        Section::Unknown { .. } => None,
        Section::Output(_) => Some(("OUTPUT".into(), kind.into())),
        known => Some((shouted(&format!("{known:?}")), kind.into())),
    });
    kinds.collect()
}

/// A name of Rust's as the header writes it.
fn shouted(name: &str) -> String {
    let parts = name.char_indices().flat_map(|(at, letter)| {
        let apart = (at > 0 && letter.is_uppercase()).then_some('_');
        apart.into_iter().chain([letter.to_ascii_uppercase()])
    });
    parts.collect()
}

#[test]
fn constants() {
    assert_eq!(numbers(), crate_numbers());
}

#[test]
fn versions() {
    let defined = header().lines().find_map(|line| line.strip_prefix("#define IVSHMEM_VERSION ").map(str::to_string));
    assert_eq!(defined, Some(format!("\"{}\"", ivshmem::VERSION)));
    assert!(BOUNDARY.contains(&format!("= ivshmem_interface_{};", ivshmem::INTERFACE)));
}

/// The words of a hub, which the header has as an expression.
#[test]
fn words() {
    let header = header();
    let (_, words) = header.split_once("IVSHMEM_HUB_WORDS(peers, vectors) \\\n").expect("the number of words");
    let written = words.lines().next().unwrap_or_default().replace("(size_t)", "");
    assert_eq!(written.trim(), "(10 + 8 * (peers) + 4 * (peers) * (vectors))");
    assert!(
        [(0, 0), (1, 1), (4, 4), (64, 16)].iter().all(|&(p, v)| ivshmem::hub_words(p, v) == 10 + 8 * p + 4 * p * v)
    );
    assert_eq!(ivshmem::MAX_HUB_WORDS, ivshmem::hub_words(ivshmem::MAX_PEERS, ivshmem::MAX_VECTORS));
}

#[test]
fn texts() {
    let header = header();
    let texts: BTreeMap<_, _> = header
        .lines()
        .filter_map(|line| {
            let (name, text) = line.trim().strip_prefix("case IVSHMEM_")?.split_once(": return \"")?;
            Some((name.to_string(), text.trim_end_matches("\";").to_string()))
        })
        .filter(|(name, _)| name != "ACCEPTED")
        .collect();
    let reasons = Refusal::ALL.map(|refusal| (shouted(&format!("{refusal:?}")), refusal.reason().to_string()));
    assert_eq!(texts, BTreeMap::from(reasons));
    let unknown = Refusal::from_number(12).map(Refusal::reason);
    assert!(header.contains(&format!("default: return \"{}\";", unknown.expect("a refusal"))));
}

/// The names of the fields, in their order, of the struct and of the record of it that is printed.
#[test]
fn fields() {
    let settings = format!("{:?}", Settings::default());
    let reply = format!("{:?}", raw::Reply::default());
    let delivery = format!("{:?}", ivshmem::Delivery::default());
    let counted = format!("{:?}", raw::Counted::default()).replace(&reply, "");
    let section = format!("{:?}", raw::SectionReply::default()).replace(&reply, "");
    for (name, printed, count) in [
        ("settings", settings, 9),
        ("reply", reply, 2),
        ("delivery", delivery, 4),
        ("counted", counted, 2),
        ("section", section, 4),
    ] {
        let header = header();
        let (_, body) = header.split_once(&format!("typedef struct ivshmem_{name} {{")).expect("the struct");
        let (body, _) = body.split_once('}').expect("its end");
        let declared: Vec<_> = body.split(';').filter_map(|field| field.split_whitespace().nth(1)).collect();
        let (_, inside) = printed.split_once('{').expect("fields");
        let written: Vec<_> =
            inside.split(',').filter_map(|field| field.split_once(':').map(|(name, _)| name.trim())).collect();
        assert_eq!(declared, written, "{name}");
        assert_eq!(declared.len(), count, "{name}");
    }
}

/// Every function that the header declares is declared and called, and has its raw form under the same name.
#[test]
fn functions() {
    let header = header();
    let declared = header.lines().filter(|line| !line.starts_with("static") && !line.starts_with('#'));
    let names: Vec<_> = declared
        .filter_map(|line| line.split_once('(')?.0.split_once(" ivshmem_").map(|(_, name)| name))
        .filter(|name| !name.contains(' '))
        .collect();
    assert!(names.len() >= 16, "{names:?}");
    for name in names.into_iter().filter(|name| !name.starts_with("interface_")) {
        assert!(BOUNDARY.contains(&format!("    fn ivshmem_{name}(")), "{name} is not declared");
        let raw = name.strip_suffix("_hub").unwrap_or(name);
        assert!(BOUNDARY.contains(&format!("\npub fn {raw}(")), "{raw} has no raw form");
    }
}
