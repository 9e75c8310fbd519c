//! Times the server's side of the old protocol, joins and leaves, beside servers in plain Rust, and prints what its calls need of
//! the stack. With `--markdown` the table is Markdown.

use std::process::ExitCode;

use benchmark::measure::PASSES;
use benchmark::report::{self, Style};
use benchmark::server_messages::{self, YARDSTICKS};
use benchmark::stack;

fn main() -> ExitCode {
    let style = match Style::asked("server_messages") {
        Ok(style) => style,
        Err(code) => return code,
    };
    let cases = server_messages::cases();
    cases.iter().for_each(server_messages::check);
    println!("Nanoseconds of a call, and library time / yardstick time; medians of {PASSES} passes.");
    println!("An empty call does nothing: what of a row is the harness.\n");
    let heads = ["call", "calls per sample", "ns per call"];
    report::print_rows(style, heads, &YARDSTICKS, server_messages::measure_all(&cases));
    for depth in stack::server_depths() {
        println!("Stack of {}, measured: {} bytes at the most.", depth.name, depth.bytes);
    }
    ExitCode::SUCCESS
}
