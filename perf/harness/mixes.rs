//! The mixes of queue calls, and how a queue is driven through one.
use crate::queues::{Queue, Record, Telegram};

/// A call of a queue, or its answer, laid out as the exports have it.
#[repr(C)]
#[derive(Clone, Copy, PartialEq, Eq, Debug)]
pub struct Slip {
    pub release: u64,
    pub number: u32,
    pub handle: u32,
    pub length: u16,
    pub row: u8,
    pub mark: u8,
}

pub const PUT: u8 = 0;
pub const TAKE: u8 = 1;
pub const EXCHANGE: u8 = 2;
const KEPT: u8 = 0;
const LEFT: u8 = 1;

impl Slip {
    pub fn of(x: Telegram, mark: u8) -> Slip {
        Slip {
            release: x.release,
            number: x.number,
            handle: x.handle,
            length: x.length,
            row: x.row,
            mark,
        }
    }

    pub fn telegram(&self) -> Telegram {
        Telegram {
            release: self.release,
            number: self.number,
            row: self.row,
            length: self.length,
            handle: self.handle,
        }
    }
}

/// The calls one after another, each with its answer at the same place.
pub fn drive<Q: Queue<Telegram>>(queue: &mut Q, calls: &[Slip], answers: &mut [Slip]) {
    for (call, answer) in calls.iter().zip(answers) {
        let left = match call.mark {
            PUT => match queue.put(call.telegram()) {
                Ok(None) => Ok(Slip::of(Telegram::BLANK, KEPT)),
                Ok(Some(x)) => Ok(Slip::of(x, LEFT)),
                Err(n) => Err(n),
            },
            TAKE => queue.take().map(|x| Slip::of(x, LEFT)),
            _ => queue.exchange(call.telegram()).map(|x| Slip::of(x, LEFT)),
        };
        *answer = left.unwrap_or_else(|n| Slip::of(Telegram::BLANK, n));
    }
}

/// Numbers that look random, the same in every run.
pub struct Dice(pub u64);

impl Dice {
    pub fn below(&mut self, n: u64) -> u64 {
        self.0 ^= self.0 << 13;
        self.0 ^= self.0 >> 7;
        self.0 ^= self.0 << 17;
        (self.0 >> 11) % n
    }
}

/// A mix of calls.
pub struct Mix {
    pub name: &'static str,
    pub calls: Vec<Slip>,
    /// Whether a full queue is put into, so that queues may drop different records.
    pub displaces: bool,
}

impl Mix {
    /// Answers that no queue gives.
    pub fn blank(&self) -> Vec<Slip> {
        vec![Slip::of(Telegram::BLANK, u8::MAX); self.calls.len()]
    }
}

/// Writes calls whose telegrams have rising numbers.
struct Writer {
    calls: Vec<Slip>,
    dice: Dice,
}

impl Writer {
    fn call(&mut self, mark: u8, release: u64) {
        let x = Telegram {
            release,
            number: self.calls.len() as u32,
            row: self.dice.below(64) as u8,
            length: 64 + self.dice.below(1455) as u16,
            handle: self.dice.below(1 << 32) as u32,
        };
        self.calls.push(Slip::of(x, mark));
    }

    /// A release that may fall anywhere among the records held, which span `window` ticks from `base`.
    fn within(&mut self, base: u64, window: u64) -> u64 {
        base + self.dice.below(window)
    }
}

/// Ticks between two calls.
const STEP: u64 = 100;

/// The names of the mixes.
pub const MIXES: [&str; 4] = ["put", "put, put, put, take", "put, take", "exchange"];

/// The mixes for a capacity.
pub fn mixes(capacity: usize) -> Vec<Mix> {
    let count = (8 * capacity).max(8192);
    let window = STEP * capacity as u64;
    let new = |seed| Writer {
        calls: Vec::new(),
        dice: Dice(seed),
    };

    // puts alone, from empty, of releases drawn from one span: the queue is full and displaces most of the time
    let mut puts = new(0x9E37_79B9);
    for _ in 0..count {
        let release = puts.within(0, 1 << 40);
        puts.call(PUT, release);
    }

    // three puts to a take: full after a while, and displacing
    let mut heavy = new(0x1234_5677);
    for i in 0..count {
        let base = i as u64 * STEP;
        let release = heavy.within(base, 4 * window);
        heavy.call(if i % 4 == 3 { TAKE } else { PUT }, release);
    }

    // half full, then put and take in turn
    let mut turns = new(0x0BAD_CAFE);
    for i in 0..capacity / 2 {
        let release = turns.within(i as u64, window);
        turns.call(PUT, release);
    }
    for i in 0..count {
        let base = i as u64 * STEP;
        let release = turns.within(base, window);
        turns.call(if i % 2 == 1 { TAKE } else { PUT }, release);
    }

    // full, then exchanges
    let mut trades = new(0x00C0_FFEE);
    for _ in 0..capacity {
        let release = trades.within(0, window);
        trades.call(PUT, release);
    }
    for i in 0..count {
        let base = i as u64 * STEP;
        let release = trades.within(base, window);
        trades.call(EXCHANGE, release);
    }

    vec![
        Mix {
            name: MIXES[0],
            calls: puts.calls,
            displaces: true,
        },
        Mix {
            name: MIXES[1],
            calls: heavy.calls,
            displaces: true,
        },
        Mix {
            name: MIXES[2],
            calls: turns.calls,
            displaces: false,
        },
        Mix {
            name: MIXES[3],
            calls: trades.calls,
            displaces: false,
        },
    ]
}
