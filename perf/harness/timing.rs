//! Contestants in turn over the same input, the best time of each, and every answer compared.
use std::time::{Duration, Instant};

/// A contestant runs the whole input once, and leaves its answers in a buffer.
pub struct Contestant<'a, A> {
    pub name: String,
    pub run: Box<dyn FnMut(&mut Vec<A>) + 'a>,
}

/// As the C library has it on 64-bit Linux.
#[repr(C)]
struct Timespec {
    seconds: i64,
    nanoseconds: i64,
}

unsafe extern "C" {
    fn clock_gettime(clock: i32, time: *mut Timespec) -> i32;
}

/// The processor time of this thread in nanoseconds. What the machine does besides is not counted.
fn processor_time() -> f64 {
    const THREAD_CPUTIME: i32 = 3;
    let mut time = Timespec {
        seconds: 0,
        nanoseconds: 0,
    };
    // SAFETY: the time is live, and laid out as the C library has it.
    let status = unsafe { clock_gettime(THREAD_CPUTIME, &mut time) };
    assert_eq!(status, 0, "no processor time");
    time.seconds as f64 * 1e9 + time.nanoseconds as f64
}

/// The best time of each contestant in nanoseconds. They take turns, at least 3 times and for so long.
/// After each run, outside of its time, its answers are held to the first contestant's.
pub fn race<A: Clone + PartialEq>(
    what: &str,
    blank: &[A],
    long: Duration,
    contestants: &mut [Contestant<A>],
) -> Vec<f64> {
    let mut expected: Option<Vec<A>> = None;
    let mut best = vec![f64::INFINITY; contestants.len()];
    let begun = Instant::now();
    let mut round = 0;
    while round < 3 || begun.elapsed() < long {
        for i in 0..contestants.len() {
            // another one begins each round
            let i = (i + round) % contestants.len();
            let mut answers = blank.to_vec();
            let start = processor_time();
            (contestants[i].run)(&mut answers);
            best[i] = best[i].min(processor_time() - start);
            match &expected {
                None => expected = Some(answers),
                Some(others) => assert!(
                    *others == answers,
                    "{what}: {} answers otherwise",
                    contestants[i].name
                ),
            }
        }
        round += 1;
    }
    best
}
