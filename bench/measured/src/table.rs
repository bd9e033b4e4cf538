//! The table, as Markdown.

use crate::machine::Machine;
use crate::{submission, Row, ROUNDS};
use std::fmt::Write;

const START: &str = "<!-- `bench/table --keep` writes from here -->\n";
const END: &str = "<!-- to here -->\n";

/// The table of all rows, with a head that says how it was measured.
pub fn table(machine: &Machine, rows: &[Row]) -> String {
    let mut text = String::new();
    let one = rows.iter().map(|row| row.one).fold(f64::MAX, f64::min);
    let _ = writeln!(text, "Measured on {}, at about {:.1} GHz; one permutation takes {one:.0} ns. Least of {ROUNDS} rounds, a message of 100 bytes.\n", machine.processor, machine.clock);
    text.push_str("| set | call | permutations | time, ms | over the floor | independent program over ours | Mcycles, estimated | submission `generic64`, Mcycles | submission `sse2`, Mcycles |\n");
    text.push_str("|---|---|---:|---:|---:|---:|---:|---:|---:|\n");
    for row in rows {
        let (number, call) = (row.set.number, row.call);
        let _ = writeln!(
            text,
            "| {number} {} | {} | {} | {:.3} | {:.2} | {:.1} | {:.2} | {:.2} | {:.2} |",
            row.set.name,
            call.name(),
            thousands(row.permutations),
            row.time / 1e6,
            row.time / row.floor(),
            row.independent / row.time,
            row.time * machine.clock / 1e6,
            submission::generic64(number, call) / 1e6,
            submission::sse2(number, call) / 1e6,
        );
    }
    text
}

/// The document with the table between its two marks.
pub fn put_between_marks(document: &str, table: &str) -> String {
    let (before, rest) = document.split_once(START).expect("the document has the mark where the table starts");
    let (_, after) = rest.split_once(END).expect("the document has the mark where the table ends");
    format!("{before}{START}{table}{END}{after}")
}

/// A number with a comma before each three digits.
fn thousands(number: usize) -> String {
    let digits = number.to_string();
    let place = |at: usize| at > 0 && (digits.len() - at) % 3 == 0;
    digits.char_indices().flat_map(|(at, digit)| place(at).then_some(',').into_iter().chain([digit])).collect()
}
