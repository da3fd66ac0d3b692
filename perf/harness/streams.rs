//! Command streams of the forms that a cabinet meets, and of forms that it should not meet.
use crate::mixes::Dice;

pub struct Stream {
    pub name: &'static str,
    pub bytes: Vec<u8>,
}

struct Writer {
    bytes: Vec<u8>,
    most: usize,
    dice: Dice,
}

impl Writer {
    fn new(most: usize, seed: u64) -> Writer {
        Writer {
            bytes: Vec::new(),
            most,
            dice: Dice(seed),
        }
    }

    /// Appends a command if there is room for it, and says whether there was.
    fn add(&mut self, byte: u8, operands: &[&[u8]]) -> bool {
        let width: usize = operands.iter().map(|o| o.len()).sum();
        if self.bytes.len() + 1 + width > self.most {
            return false;
        }
        self.bytes.push(byte);
        for operand in operands {
            self.bytes.extend_from_slice(operand);
        }
        true
    }

    fn set(&mut self, row: u8, pace: u16, burst: u32) -> bool {
        self.add(1, &[&[row], &pace.to_be_bytes(), &burst.to_be_bytes()])
    }

    /// Command 3, an admit, or 5, an exchange.
    fn enter(&mut self, byte: u8, now: u64, row: u8, length: u16) -> bool {
        let handle = self.dice.below(1 << 32) as u32;
        self.add(
            byte,
            &[
                &now.to_be_bytes(),
                &[row],
                &length.to_be_bytes(),
                &handle.to_be_bytes(),
            ],
        )
    }

    fn release(&mut self, now: u64) -> bool {
        self.add(4, &[&now.to_be_bytes()])
    }

    fn reading(&mut self, row: u8, position: i32, target: i32) -> bool {
        self.add(6, &[&[row], &position.to_be_bytes(), &target.to_be_bytes()])
    }

    /// Rows 0 to 15 at pace 2, and the start.
    fn rig(&mut self) {
        for row in 0..16 {
            self.set(row, 2, 3000);
        }
        self.add(2, &[]);
    }

    fn row(&mut self) -> u8 {
        self.dice.below(16) as u8
    }

    fn length(&mut self) -> u16 {
        64 + self.dice.below(400) as u16
    }
}

/// Admits, releases and exchanges in the run of an evening, some of them refused.
fn evening(most: usize) -> Vec<u8> {
    let mut w = Writer::new(most, 0x5EED_0001);
    w.rig();
    let mut now = 0;
    loop {
        now += w.dice.below(200);
        let (row, length) = (w.row(), w.length());
        let wrote = match w.dice.below(5) {
            0 | 1 => w.enter(3, now, row, length),
            2 | 3 => w.release(now),
            _ => w.enter(5, now, row, length),
        };
        if !wrote {
            return w.bytes;
        }
    }
}

/// Admits alone, to rows that are free: the queue is full and displaces.
fn displacing(most: usize) -> Vec<u8> {
    let mut w = Writer::new(most, 0x5EED_0002);
    w.rig();
    let mut now = 0;
    loop {
        now += 40_000;
        let (row, length) = (w.row(), w.length());
        if !w.enter(3, now, row, length) {
            return w.bytes;
        }
    }
}

/// A full queue, then exchanges.
fn exchanges(most: usize) -> Vec<u8> {
    let mut w = Writer::new(most, 0x5EED_0003);
    w.rig();
    let mut now = 0;
    for i in 0.. {
        now += 40_000;
        let (row, length) = (w.row(), w.length());
        if !w.enter(if i < 33 { 3 } else { 5 }, now, row, length) {
            break;
        }
    }
    w.bytes
}

/// Starts, shows and closes: a command a byte, nearly all refused.
fn one_byte(most: usize) -> Vec<u8> {
    let mut w = Writer::new(most, 0x5EED_0004);
    loop {
        let byte = [2, 7, 8][w.dice.below(3) as usize];
        if !w.add(byte, &[]) {
            return w.bytes;
        }
    }
}

/// Readings and shows, two to one, before the start.
fn readings(most: usize) -> Vec<u8> {
    let mut w = Writer::new(most, 0x5EED_0005);
    loop {
        let place = |w: &mut Writer| w.dice.below(40_001) as i32 - 20_000;
        let (position, target) = (place(&mut w), place(&mut w));
        let row = w.dice.below(64) as u8;
        let wrote = match w.dice.below(3) {
            0 => w.add(7, &[]),
            _ => w.reading(row, position, target),
        };
        if !wrote {
            return w.bytes;
        }
    }
}

/// Commands that are refused: by time, row, length, an early release, an empty queue, a reading out of
/// bounds, and the wrong stage.
fn refusals(most: usize) -> Vec<u8> {
    let mut w = Writer::new(most, 0x5EED_0006);
    w.rig();
    w.enter(3, 5000, 0, 100);
    w.enter(3, 5000, 0, 100);
    w.release(5000);
    loop {
        let (row, length) = (w.row(), w.length());
        let wrote = match w.dice.below(8) {
            0 => w.enter(3, 4999, row, length),
            1 => w.enter(3, 5000, 16 + row, length),
            2 => w.enter(3, 5000, row, 63),
            3 => w.release(5001),
            4 => w.enter(5, 1 << 48, row, length),
            5 => w.reading(row, 20_001, 0),
            6 => w.set(row, 1, 1),
            _ => w.add(7, &[]),
        };
        if !wrote {
            return w.bytes;
        }
    }
}

/// Each form of stream, of at most so many bytes.
pub fn streams(most: usize) -> Vec<Stream> {
    vec![
        Stream {
            name: "an evening",
            bytes: evening(most),
        },
        Stream {
            name: "displacing admits",
            bytes: displacing(most),
        },
        Stream {
            name: "exchanges",
            bytes: exchanges(most),
        },
        Stream {
            name: "readings and shows",
            bytes: readings(most),
        },
        Stream {
            name: "one byte a command",
            bytes: one_byte(most),
        },
        Stream {
            name: "refused commands",
            bytes: refusals(most),
        },
    ]
}

/// A short stream of any commands, with operands about their bounds; at its end perhaps a byte that is no
/// command, or a command cut off.
pub fn any(seed: u64) -> Vec<u8> {
    const LAST_TICK: u64 = 281_474_976_710_655;
    let mut w = Writer::new(1200, seed);
    let mut dice = Dice(seed ^ 0x5EED_0007);
    let mut pick = |n: u64| dice.below(n) as usize;
    for row in 0..4 {
        w.set(
            row,
            [1, 20, 1000, 1000, 0, 1001][pick(6)],
            [0, 3000, 1_000_000, 1_000_001][pick(4)],
        );
    }
    // time goes on slowly, by jumps, or both
    let steps: &[u64] = [&[0, 1, 700][..], &[40_000, 2_000_000], &[0, 1, 700, 40_000]][pick(3)];
    // of 40 commands so many are admits
    let admits = [10, 20, 36][pick(3)];
    let most = 100 + pick(1000);
    let mut now = 0;
    w.add(2, &[]);
    while w.bytes.len() < most {
        now += steps[pick(steps.len() as u64)];
        let at = match pick(100) {
            0 => now.saturating_sub(1),
            1 => LAST_TICK - 100 * pick(3) as u64,
            2 => LAST_TICK + 1,
            _ => now,
        };
        let row = if pick(8) > 0 {
            pick(4) as u8
        } else {
            [4, 63, 64, 255][pick(4)]
        };
        let length = [63, 64, 64, 100, 100, 1518, 1518, 1519][pick(8)];
        let position = pick(40_004) as i32 - 20_002;
        let target = [position, 0, -20_000, 20_000, 20_001, i32::MIN][pick(6)];
        let place = pick(40);
        match if place < admits { 0 } else { 1 + pick(8) } {
            0 => w.enter(3, at, row, length),
            1 | 2 => w.release(at),
            3 => w.enter(5, at, row, length),
            4 | 5 => w.reading(row, position, target),
            6 | 7 => w.add(7, &[]),
            _ => match pick(8) {
                0 => w.add(8, &[]),
                1 => w.add(2, &[]),
                _ => w.set(row, 1, 1),
            },
        };
    }
    match pick(3) {
        0 => w.bytes.push([0, 9, 255][pick(3)]),
        1 => w.bytes.truncate(w.bytes.len() - 1),
        _ => {}
    }
    w.bytes
}
