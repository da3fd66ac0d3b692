//! The speed of the proved queues and of the proved list run beside plain Rust: docs/SPEED.md.
mod asked;
mod commands;
mod list;
mod measure;
mod mixes;
mod others;
mod print;
mod proved;
mod queues;
mod streams;
mod text;
mod timing;

use std::time::Duration;

// Moves all code on by so many bytes. A loop is faster or slower by where it stands against the lines of
// the processor's cache, whoever wrote it, so perf/run measures at several places and takes the best.
std::arch::global_asm!(
    ".pushsection .text.shift, \"axR\"",
    concat!(".zero ", env!("SPEED_SHIFT")),
    ".popsection"
);

/// `measure MILLISECONDS` prints times, each race taking so long at the least; `print FILE...` prints the
/// tables of the best times of such files.
fn main() {
    let words: Vec<String> = std::env::args().skip(1).collect();
    match words.split_first() {
        Some((verb, files)) if verb == "print" => print::tables(files),
        Some((verb, long)) if verb == "measure" => {
            let long =
                Duration::from_millis(long.first().and_then(|n| n.parse().ok()).unwrap_or(250));
            measure::agree();
            measure::queues(long);
            measure::lists(long);
            measure::counting(long);
        }
        _ => panic!("usage: measure MILLISECONDS, or print FILE..."),
    }
}
