//! What the library's calls need of the stack, measured.

#![cfg(all(target_arch = "x86_64", unix))]

use benchmark::stack;
use ivshmem::CONFIGURATION_BYTES;

/// No access to configuration space lays out the space: what the benchmark's calls need, all functions below them included, is
/// less than that.
#[test]
fn no_page_of_configuration_space() {
    let depths: Vec<_> = stack::depths().into_iter().filter(|depth| depth.name.contains("configuration")).collect();
    assert_eq!(depths.len(), 2);
    for depth in depths {
        println!("stack, {}: {} bytes", depth.name, depth.bytes);
        assert!((1..CONFIGURATION_BYTES as usize).contains(&depth.bytes));
    }
}
