//! Tables, aligned for a terminal or in Markdown.

use std::process::ExitCode;

use crate::measure::Row;

/// How a table is printed.
#[derive(Clone, Copy, PartialEq, Eq)]
pub enum Style {
    Terminal,
    Markdown,
}

impl Style {
    /// The style that a program's arguments ask for.
    ///
    /// # Errors
    /// What the program ends with where they ask for something else, after a line that says what it takes.
    pub fn asked(program: &str) -> Result<Style, ExitCode> {
        let arguments: Vec<String> = std::env::args().skip(1).collect();
        match arguments.iter().map(String::as_str).collect::<Vec<_>>()[..] {
            [] => Ok(Style::Terminal),
            ["--markdown"] => Ok(Style::Markdown),
            _ => {
                eprintln!("usage: {program} [--markdown]");
                Err(ExitCode::from(2))
            }
        }
    }
}

/// Prints rows of times: name, calls, nanoseconds, a ratio for each yardstick, and how far the passes lie apart.
pub fn print_rows(style: Style, heads: [&str; 3], yardsticks: &[&str], rows: Vec<Row>) {
    let mut table = Table::new(&[&heads[..], yardsticks, &["spread"]].concat());
    for row in rows {
        let mut cells = vec![row.name, row.calls.to_string(), format!("{:.1}", row.nanoseconds)];
        cells.extend(row.ratios.iter().map(|ratio| format!("{ratio:.2}")));
        cells.resize(3 + yardsticks.len(), String::new());
        cells.push(row.spread.map(|spread| format!("{:.0} %", 100.0 * spread)).unwrap_or_default());
        table.add(cells);
    }
    table.print(style);
}

/// Lines of cells; the first line has the heads, and all but the first column are numbers.
pub struct Table {
    lines: Vec<Vec<String>>,
}

impl Table {
    #[must_use]
    pub fn new(heads: &[&str]) -> Table {
        Table { lines: vec![heads.iter().map(ToString::to_string).collect()] }
    }

    pub fn add(&mut self, cells: Vec<String>) {
        self.lines.push(cells);
    }

    pub fn print(&self, style: Style) {
        let columns = self.lines[0].len();
        let width = |column: usize| self.lines.iter().map(|line| line[column].len()).max().unwrap_or_default();
        let widths: Vec<usize> = (0..columns).map(width).collect();
        for (at, line) in self.lines.iter().enumerate() {
            let cell = |(column, text): (usize, &String)| match column {
                0 => format!("{text:<width$}", width = widths[0]),
                _ => format!("{text:>width$}", width = widths[column]),
            };
            let cells: Vec<String> = line.iter().enumerate().map(cell).collect();
            match style {
                Style::Terminal => println!("{}", cells.join("  ")),
                Style::Markdown => println!("| {} |", cells.join(" | ")),
            }
            if at == 0 && style == Style::Markdown {
                println!("|--{}|", "|--:".repeat(columns - 1));
            }
        }
        println!();
    }
}
