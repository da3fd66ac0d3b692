//! What is measured: who runs which calls or streams. Each time is printed as a line of its own, for
//! `print` to read.
use crate::asked::{Asked, Told};
use crate::list;
use crate::mixes::{Mix, Slip, drive, mixes};
use crate::others::{Array, Heap, Tree};
use crate::proved;
use crate::queues::{Grouped, Queue, Sorted, Telegram};
use crate::streams;
use crate::timing::{Contestant, race};
use std::time::Duration;

pub const CAPACITIES: [usize; 4] = [32, 256, 1024, 4096];
pub const BYTES: [usize; 2] = [1024, 65_536];

/// The shapes (groups, cells a group) of each capacity. 4,096 cells have no other.
pub fn shapes(capacity: usize) -> &'static [(usize, usize)] {
    match capacity {
        32 => &[(2, 16), (8, 4), (16, 2)],
        256 => &[(4, 64), (16, 16), (64, 4)],
        1024 => &[(16, 64), (32, 32), (64, 16)],
        _ => &[(64, 64)],
    }
}

/// Prints the times of a race, each in nanoseconds for one of `parts` parts of it.
fn tell<A>(table: &str, what: &str, parts: usize, contestants: &[Contestant<A>], best: &[f64]) {
    for (contestant, time) in contestants.iter().zip(best) {
        println!(
            "{table}\t{what}\t{}\t{}",
            contestant.name,
            time / parts as f64
        );
    }
}

/// A contestant that drives a new queue through a mix.
fn driver<'a, Q: Queue<Telegram>>(
    name: String,
    mix: &'a Mix,
    new: impl Fn() -> Q + 'a,
) -> Contestant<'a, Slip> {
    Contestant {
        name,
        run: Box::new(move |answers| drive(&mut new(), &mix.calls, answers)),
    }
}

/// The queues that drop their last record when full.
fn sorted_kind(capacity: usize, mix: &Mix) -> Vec<Contestant<'_, Slip>> {
    let mut kind = vec![
        driver("plain sorted".into(), mix, move || Sorted::new(capacity)),
        Contestant {
            name: "proved sorted".into(),
            run: Box::new(move |answers| proved::sorted(capacity, &mix.calls, answers)),
        },
        driver("halving".into(), mix, move || Array::new(capacity)),
        driver("BTreeSet".into(), mix, move || Tree::new(capacity)),
    ];
    if !mix.displaces {
        kind.push(driver("BinaryHeap".into(), mix, move || {
            Heap::new(capacity)
        }));
    }
    kind
}

/// The grouped queues of a shape, which drop the same record when full.
fn grouped_kind((m, n): (usize, usize), mix: &Mix) -> Vec<Contestant<'_, Slip>> {
    vec![
        driver(format!("plain {m} × {n}"), mix, move || Grouped::new(m, n)),
        Contestant {
            name: format!("proved {m} × {n}"),
            run: Box::new(move |answers| proved::groups(m, n, &mix.calls, answers)),
        },
    ]
}

/// The queues through every mix. Only queues that mean the same are compared: those of one kind, and all
/// of them where nothing is displaced.
pub fn queues(long: Duration) {
    for capacity in CAPACITIES {
        for mix in &mixes(capacity) {
            let mut kinds = vec![sorted_kind(capacity, mix)];
            kinds.extend(
                shapes(capacity)
                    .iter()
                    .map(|shape| grouped_kind(*shape, mix)),
            );
            if !mix.displaces {
                kinds = vec![kinds.into_iter().flatten().collect()];
            }
            let what = format!("{capacity} {}", mix.name);
            for kind in &mut kinds {
                let best = race(&what, &mix.blank(), long, kind);
                tell("queues", &what, mix.calls.len(), kind, &best);
            }
        }
    }
}

/// Holds the two list programs to each other on short streams of any commands, and on one too long.
pub fn agree() {
    let mut out = vec![0; 100_000];
    let long = vec![7; 65_537];
    for bytes in (1..=20_000)
        .map(|seed| streams::any(seed * 0x9E37_79B9))
        .chain([Vec::new(), long])
    {
        let count = proved::list(&bytes, &mut out);
        assert!(
            out[..count] == list::list_of(&bytes),
            "the lists of {bytes:?} differ"
        );
    }
}

/// The list run over every stream.
pub fn lists(long: Duration) {
    for most in BYTES {
        for stream in &streams::streams(most) {
            let bytes = &stream.bytes;
            let text = list::list_of(bytes);
            let lines = text.iter().filter(|b| **b == b'\n').count();
            // short streams are run many times in a row
            let times = BYTES[1] / most;
            let plain = move |out: &mut Vec<u8>| {
                for _ in 0..times {
                    let text = list::list_of(bytes);
                    out[..text.len()].copy_from_slice(&text);
                }
            };
            let proved = move |out: &mut Vec<u8>| {
                for _ in 0..times {
                    let count = proved::list(bytes, out);
                    assert!(count > 0);
                }
            };
            let mut contestants = [
                Contestant {
                    name: "plain".to_string(),
                    run: Box::new(plain),
                },
                Contestant {
                    name: "proved".to_string(),
                    run: Box::new(proved),
                },
            ];
            let best = race(
                stream.name,
                &vec![0; text.len() + 96],
                long,
                &mut contestants,
            );
            let what = format!("{most} {} | {} | {lines}", stream.name, bytes.len());
            tell("lists", &what, times, &contestants, &best);
        }
    }
}

/// The number held, told in three ways before each put.
pub fn counting(long: Duration) {
    for capacity in CAPACITIES {
        let mix = &mixes(capacity)[2];
        let (m, n) = shapes(capacity)[shapes(capacity).len() / 2];
        let ways = [
            ("field", Told::Field),
            ("count", Told::Count),
            ("halving", Told::Halving),
        ];
        let mut contestants = ways.map(|(name, told)| {
            let run = move |answers: &mut Vec<Slip>| {
                let mut queue = Asked::new(Grouped::new(m, n), told);
                drive(&mut queue, &mix.calls, answers);
                // the sum of the numbers told is an answer too
                answers.push(Slip {
                    release: queue.sum as u64,
                    ..answers[0]
                });
            };
            Contestant {
                name: name.to_string(),
                run: Box::new(run),
            }
        });
        let best = race("asked", &mix.blank(), long, &mut contestants);
        tell(
            "counting",
            &format!("{m} × {n}"),
            mix.calls.len(),
            &contestants,
            &best,
        );
    }
}
