//! The tables of docs/SPEED.md as Markdown, from the lines that `measure` printed.
use crate::measure::{BYTES, CAPACITIES, shapes};
use crate::mixes::MIXES;
use crate::streams::streams;
use std::collections::HashMap;

/// The best time of each contestant over all layouts, in nanoseconds.
pub struct Times(HashMap<String, f64>);

impl Times {
    pub fn read(files: &[String]) -> Times {
        let mut times = HashMap::new();
        for file in files {
            let text = std::fs::read_to_string(file).expect("a file of times");
            for line in text.lines() {
                let (what, time) = line.rsplit_once('\t').expect("a line of a time");
                let time: f64 = time.parse().expect("a time");
                let best = times.entry(what.to_string()).or_insert(time);
                *best = best.min(time);
            }
        }
        Times(times)
    }

    fn find(&self, table: &str, what: &str, name: &str) -> Option<f64> {
        self.0.get(&format!("{table}\t{what}\t{name}")).copied()
    }
}

/// A ratio, which stands out where it is above 1.1.
fn ratio(ours: f64, theirs: f64) -> String {
    let r = ours / theirs;
    if r > 1.1 {
        format!("**{r:.2}**")
    } else {
        format!("{r:.2}")
    }
}

fn comma(n: usize) -> String {
    if n < 1000 {
        n.to_string()
    } else {
        format!("{},{:03}", n / 1000, n % 1000)
    }
}

/// A line for a proved queue: its time, and how that stands to the same steps in plain Rust and to the
/// `BTreeSet`.
fn proved_line(times: &Times, capacity: usize, name: &str) {
    let cells = MIXES.map(|mix| {
        let what = format!("{capacity} {mix}");
        let find = |name: &str| {
            times
                .find("queues", &what, name)
                .expect("a time of each queue")
        };
        let ours = find(&format!("proved {name}"));
        let plain = find(&format!("plain {name}"));
        format!(
            "{ours:.0} ({}; {:.1})",
            ratio(ours, plain),
            ours / find("BTreeSet")
        )
    });
    println!(
        "| {} | proved, {name} | {} |",
        comma(capacity),
        cells.join(" | ")
    );
}

/// A line for a queue in plain Rust.
fn plain_line(times: &Times, capacity: usize, name: &str, says: &str) {
    let cells = MIXES.map(|mix| {
        let time = times.find("queues", &format!("{capacity} {mix}"), name);
        time.map_or(String::new(), |t| format!("{t:.0}"))
    });
    println!("| {} | {says} | {} |", comma(capacity), cells.join(" | "));
}

fn queues(times: &Times) {
    println!(
        "Nanoseconds a call. In brackets: the proved queue's time divided by that of the same steps in plain Rust; then divided by that of the `BTreeSet`.\n"
    );
    println!("| cells | queue | {} |", MIXES.join(" | "));
    println!("|---|---|---|---|---|---|");
    for capacity in CAPACITIES {
        for (m, n) in shapes(capacity) {
            proved_line(times, capacity, &format!("{m} × {n}"));
        }
        proved_line(times, capacity, "sorted");
        plain_line(times, capacity, "halving", "array, place by halving");
        plain_line(times, capacity, "BTreeSet", "`BTreeSet`");
        plain_line(times, capacity, "BinaryHeap", "`BinaryHeap`");
    }
}

fn lists(times: &Times) {
    println!("\nMicroseconds a stream.\n");
    println!("| stream | bytes | lines | proved | plain Rust | ratio |");
    println!("|---|---|---|---|---|---|");
    for most in BYTES {
        for stream in streams(most) {
            let lines = crate::list::list_of(&stream.bytes)
                .iter()
                .filter(|b| **b == b'\n')
                .count();
            let what = format!("{most} {} | {} | {lines}", stream.name, stream.bytes.len());
            let find = |name| {
                times
                    .find("lists", &what, name)
                    .expect("a time of each stream")
                    / 1000.0
            };
            let (ours, plain) = (find("proved"), find("plain"));
            println!(
                "| {} | {} | {} | {ours:.1} | {plain:.1} | {} |",
                stream.name,
                comma(stream.bytes.len()),
                comma(lines),
                ratio(ours, plain)
            );
        }
    }
}

fn counting(times: &Times) {
    println!(
        "\nNanoseconds a call of the mix `{}` in plain Rust, the number held asked before each put.\n",
        MIXES[2]
    );
    println!(
        "| groups × cells | a field | cells counted | times the field | found by halving | times the field |"
    );
    println!("|---|---|---|---|---|---|");
    for capacity in CAPACITIES {
        let (m, n) = shapes(capacity)[shapes(capacity).len() / 2];
        let what = format!("{m} × {n}");
        let find = |name| {
            times
                .find("counting", &what, name)
                .expect("a time of each way")
        };
        let (field, count, halving) = (find("field"), find("count"), find("halving"));
        println!(
            "| {what} | {field:.0} | {count:.0} | {:.2} | {halving:.0} | {:.2} |",
            count / field,
            halving / field
        );
    }
}

/// The block of docs/SPEED.md, between its marks.
pub fn tables(files: &[String]) {
    let times = Times::read(files);
    println!("<!-- perf/run: begin -->");
    queues(&times);
    lists(&times);
    counting(&times);
    println!("<!-- perf/run: end -->");
}
