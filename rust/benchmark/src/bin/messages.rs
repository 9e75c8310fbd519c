//! Times the reader of the old server's messages on a long stream, beside readers in Rust, and prints what a call of it needs of
//! the stack. With `--markdown` the table is Markdown.

use std::process::ExitCode;

use benchmark::measure::PASSES;
use benchmark::messages::{self, RECORDS, YARDSTICKS};
use benchmark::report::{self, Style};
use benchmark::stack;
use ivshmem_protocol::{IDS, MAX_VECTORS};

fn main() -> ExitCode {
    let style = match Style::asked("messages") {
        Ok(style) => style,
        Err(code) => return code,
    };
    let stream = messages::stream(RECORDS);
    let cases = messages::cases(&stream);
    let seen: Vec<_> = cases.iter().map(messages::check).collect();
    describe(&seen[1]);
    println!(
        "Nanoseconds of a record, or of a refused call, and library time / yardstick time; medians of {PASSES} passes."
    );
    println!("An empty call does nothing: what of a row is the harness. The model allocates at every call.\n");
    let heads = ["reading", "records", "ns per record"];
    report::print_rows(style, heads, &YARDSTICKS, messages::measure_all(&cases));
    for depth in stack::reader_depths() {
        println!("Stack of {}, measured: {} bytes at the most.", depth.name, depth.bytes);
    }
    ExitCode::SUCCESS
}

/// What is in the stream.
fn describe(seen: &[usize; 8]) {
    let [_, version, id, memory, vectors, extra, left, _] = *seen;
    let share = |count: usize| 100.0 * count as f64 / RECORDS as f64;
    println!("A stream of {RECORDS} records over {IDS} ids, {MAX_VECTORS} vectors configured:");
    println!(
        "{} of the start, vectors {:.1} %, extra {:.1} %, disconnected {:.1} %.\n",
        version + id + memory,
        share(vectors),
        share(extra),
        share(left)
    );
}
