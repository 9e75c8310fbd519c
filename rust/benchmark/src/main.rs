//! Prints how the library's times stand to the yardsticks', and what a hub and a call need of memory.
//! With `--markdown` the tables are Markdown.

use std::process::ExitCode;

use benchmark::cases::SIZES;
use benchmark::measure::{PASSES, Row, YARDSTICKS, measure_all};
use benchmark::report::{Style, Table};
use benchmark::state::{Form, Plain};
use benchmark::{cases, million, stack};
use ivshmem::{MAX_PEERS, MAX_VECTORS};

fn main() -> ExitCode {
    let style = match Style::asked("benchmark") {
        Ok(style) => style,
        Err(code) => return code,
    };
    print_all_times(style);
    print_memory(style);
    ExitCode::SUCCESS
}

fn print_all_times(style: Style) {
    println!("Library time / yardstick time; medians of {PASSES} passes. Check 10 is in every call but set up.");
    println!("An empty call is a register write that does nothing: what of a row is the harness.\n");
    for size in SIZES {
        println!("A hub of {} peers and {} vectors:\n", size.peers, size.vectors);
        print_times(style, measure_all(&cases::all(size)));
    }
    println!(
        "One million State stores in a run, {MAX_PEERS} peers by {MAX_VECTORS} vectors, medians of {PASSES} runs:\n"
    );
    print_times(style, million::measure_all());
    println!("State stores as the peers grow, with {MAX_VECTORS} vectors each:\n");
    print_times(style, measure_all(&cases::growth_by_peers()));
    println!("State stores as the vectors grow, with {MAX_PEERS} peers:\n");
    print_times(style, measure_all(&cases::growth_by_vectors()));
}

fn print_times(style: Style, rows: Vec<Row>) {
    let mut table = Table::new(&[&["call", "calls per sample", "ns per call"], &YARDSTICKS[..]].concat());
    let mut spreads = Vec::new();
    for row in rows {
        let mut cells = vec![row.name, row.calls.to_string(), format!("{:.1}", row.nanoseconds)];
        cells.extend(row.ratios.iter().map(|ratio| format!("{ratio:.2}")));
        cells.resize(3 + YARDSTICKS.len(), String::new());
        table.add(cells);
        spreads.extend(row.spread.map(|spread| 100.0 * spread));
    }
    table.print(style);
    spreads.sort_by(f64::total_cmp);
    let (middle, most) = (spreads[spreads.len() / 2], spreads[spreads.len() - 1]);
    println!(
        "Between the passes a row's ratios differ by {middle:.0} % (median of the rows), {most:.0} % at the most.\n"
    );
}

fn print_memory(style: Style) {
    let mut table = Table::new(&["memory", "bytes"]);
    for size in SIZES {
        let words = cases::booted(&size.settings(), |_| true);
        let hub = format!("hub of {} by {}", size.peers, size.vectors);
        table.add(vec![format!("{hub}, words"), <[u32]>::bytes(&words).to_string()]);
        table.add(vec![format!("{hub}, plain struct"), Plain::bytes(&Plain::owned(&words)).to_string()]);
    }
    let depths = stack::depths();
    for depth in &depths {
        table.add(vec![format!("stack, {}", depth.name), depth.bytes.to_string()]);
    }
    if let Some(bytes) = depths.iter().map(|depth| depth.bytes).max() {
        table.add(vec!["stack, the most".into(), bytes.to_string()]);
    }
    table.print(style);
}
