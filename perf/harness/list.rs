//! The list program in plain Rust, written from docs/STREAM.md, docs/LIST.md, docs/SHOW.md and
//! docs/QUEUES.md.
use crate::commands::{Command, Fault, Reading, read};
use crate::queues::{EMPTY, Grouped, Queue, Side, Telegram};
use crate::text::{figure, line, refused};

const LAST_TICK: u64 = 281_474_976_710_655;
const COUNT_LIMIT: u32 = 1_000_000;
const LONGEST: usize = 65_536;

#[derive(Clone, Copy)]
struct Row {
    pace: u16,
    burst: u32,
    time: u64,
}

#[derive(Clone, Copy, PartialEq, Eq)]
enum Stage {
    Rigged,
    Running,
    Closed,
}

struct Cabinet {
    stage: Stage,
    clock: u64,
    accepted: u32,
    departed: u32,
    displaced: u32,
    rows: [Option<Row>; 64],
    queue: Side<Telegram, Grouped<Telegram>>,
    panel: Grouped<Reading>,
}

fn one_more(count: u32) -> u32 {
    COUNT_LIMIT.min(count + 1)
}

impl Cabinet {
    /// The telegram that may enter, with the row after it, by tests 1 to 7.
    fn enter(&self, now: u64, row: u8, length: u16, handle: u32) -> Result<(Telegram, Row), Fault> {
        if now < self.clock || now > LAST_TICK {
            return Err((1, b'U'));
        }
        let Some(Some(card)) = self.rows.get(usize::from(row)) else {
            return Err((2, b'U'));
        };
        if !(64..=1518).contains(&length) {
            return Err((3, b'U'));
        }
        if self.accepted >= COUNT_LIMIT {
            return Err((4, b'U'));
        }
        let release = card.time.max(now);
        let time = release + u64::from(length) * u64::from(card.pace);
        if time > LAST_TICK {
            return Err((5, b'U'));
        }
        let (held, capacity) = (self.queue.len(), self.queue.capacity());
        if 3 * held >= 2 * capacity {
            if card.time > now {
                return Err((7, b'U'));
            }
        } else if 3 * held >= capacity && card.time > now + u64::from(card.burst) {
            return Err((6, b'U'));
        }
        let telegram = Telegram {
            release,
            number: self.accepted,
            row,
            length,
            handle,
        };
        Ok((telegram, Row { time, ..*card }))
    }

    fn accept(&mut self, now: u64, row: u8, after: Row) {
        self.clock = now;
        self.accepted += 1;
        self.rows[usize::from(row)] = Some(after);
    }

    /// Test 9, where a telegram is held.
    fn due(&self, now: u64) -> Result<(), Fault> {
        match self.queue.first() {
            Some(first) if first.release > now => Err((9, b'U')),
            _ => Ok(()),
        }
    }

    fn admit(
        &mut self,
        out: &mut Vec<u8>,
        now: u64,
        row: u8,
        length: u16,
        handle: u32,
    ) -> Result<(), Fault> {
        let (telegram, after) = self.enter(now, row, length, handle)?;
        let displaced = self.queue.put(telegram).map_err(|n| (n, b'Q'))?;
        self.accept(now, row, after);
        line(
            out,
            b'A',
            &[u64::from(telegram.number), u64::from(row), telegram.release],
        );
        if let Some(other) = displaced {
            self.displaced = one_more(self.displaced);
            line(out, b'X', &[u64::from(other.number), u64::from(other.row)]);
        }
        Ok(())
    }

    fn release(&mut self, out: &mut Vec<u8>, now: u64) -> Result<(), Fault> {
        if now < self.clock || now > LAST_TICK {
            return Err((1, b'U'));
        }
        self.due(now)?;
        let first = self.queue.take().map_err(|n| (n, b'Q'))?;
        self.clock = now;
        self.departed = one_more(self.departed);
        line(
            out,
            b'D',
            &[u64::from(first.number), u64::from(first.row), now],
        );
        Ok(())
    }

    fn exchange(
        &mut self,
        out: &mut Vec<u8>,
        now: u64,
        row: u8,
        length: u16,
        handle: u32,
    ) -> Result<(), Fault> {
        let (telegram, after) = self.enter(now, row, length, handle)?;
        self.due(now)?;
        let first = self.queue.exchange(telegram).map_err(|n| (n, b'Q'))?;
        self.accept(now, row, after);
        self.departed = one_more(self.departed);
        line(
            out,
            b'D',
            &[u64::from(first.number), u64::from(first.row), now],
        );
        line(
            out,
            b'A',
            &[u64::from(telegram.number), u64::from(row), telegram.release],
        );
        Ok(())
    }

    fn set(&mut self, row: u8, pace: u16, burst: u32) -> Result<(), Fault> {
        if row > 63 {
            return Err((2, b'U'));
        }
        if !(1..=1000).contains(&pace) || burst > 1_000_000 {
            return Err((10, b'U'));
        }
        self.rows[usize::from(row)] = Some(Row {
            pace,
            burst,
            time: 0,
        });
        Ok(())
    }

    fn offer(&mut self, reading: Reading) -> Result<(), Fault> {
        let reach = -20_000..=20_000;
        if reading.row > 63
            || !reach.contains(&reading.position)
            || !reach.contains(&reading.target)
        {
            return Err((16, b'P'));
        }
        self.panel.put(reading).map_err(|n| (n, b'Q'))?;
        Ok(())
    }

    fn show(&mut self, out: &mut Vec<u8>) -> Result<(), Fault> {
        let reading = self.panel.take().map_err(|_| (EMPTY, b'Q'))?;
        figure(out, reading.position);
        Ok(())
    }

    fn close(&mut self, out: &mut Vec<u8>) {
        self.stage = Stage::Closed;
        let counts = [
            self.accepted,
            self.departed,
            self.displaced,
            self.queue.len() as u32,
        ];
        line(out, b'T', &counts.map(u64::from));
    }

    fn call(&mut self, out: &mut Vec<u8>, command: Command) -> Result<(), Fault> {
        match (command, self.stage) {
            (Command::Reading(reading), _) => self.offer(reading),
            (Command::Show, _) => self.show(out),
            (Command::SetRow { row, pace, burst }, Stage::Rigged) => self.set(row, pace, burst),
            (Command::Start, Stage::Rigged) => {
                self.stage = Stage::Running;
                Ok(())
            }
            (
                Command::Admit {
                    now,
                    row,
                    length,
                    handle,
                },
                Stage::Running,
            ) => self.admit(out, now, row, length, handle),
            (Command::Release { now }, Stage::Running) => self.release(out, now),
            (
                Command::Exchange {
                    now,
                    row,
                    length,
                    handle,
                },
                Stage::Running,
            ) => self.exchange(out, now, row, length, handle),
            (Command::Close, Stage::Running) => {
                self.close(out);
                Ok(())
            }
            _ => Err((13, b'S')),
        }
    }
}

/// The text of the release list of a command stream. The show's queue is a side cell over 8 groups of
/// 4 telegrams, the panel's 4 groups of 2 readings.
pub fn list_of(bytes: &[u8]) -> Vec<u8> {
    let mut out = b"hall list 1\n".to_vec();
    if bytes.len() > LONGEST {
        refused(&mut out, (18, b'S'), LONGEST);
        return out;
    }
    let mut cabinet = Cabinet {
        stage: Stage::Rigged,
        clock: 0,
        accepted: 0,
        departed: 0,
        displaced: 0,
        rows: [None; 64],
        queue: Side::new(Grouped::new(8, 4)),
        panel: Grouped::new(4, 2),
    };
    let mut place = 0;
    while place < bytes.len() {
        match read(&bytes[place..]) {
            Ok((command, taken)) => {
                if let Err(fault) = cabinet.call(&mut out, command) {
                    refused(&mut out, fault, place);
                }
                place += taken;
            }
            Err(fault) => {
                refused(&mut out, fault, place);
                break;
            }
        }
    }
    out
}
