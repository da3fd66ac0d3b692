//! The commands of a stream in plain Rust, written from docs/STREAM.md.
use crate::queues::Record;
use std::cmp::Ordering;

#[derive(Clone, Copy, PartialEq, Eq)]
pub struct Reading {
    pub row: u8,
    pub position: i32,
    pub target: i32,
}

impl Ord for Reading {
    fn cmp(&self, other: &Self) -> Ordering {
        let here = self.position.abs_diff(self.target);
        let there = other.position.abs_diff(other.target);
        there
            .cmp(&here)
            .then(self.row.cmp(&other.row))
            .then(self.position.cmp(&other.position))
            .then(self.target.cmp(&other.target))
    }
}

impl PartialOrd for Reading {
    fn partial_cmp(&self, other: &Self) -> Option<Ordering> {
        Some(self.cmp(other))
    }
}

impl Record for Reading {
    const BLANK: Reading = Reading {
        row: u8::MAX,
        position: i32::MAX,
        target: i32::MAX,
    };
}

/// A refusal: its number and the letter of its layer.
pub type Fault = (u8, u8);

pub enum Command {
    SetRow {
        row: u8,
        pace: u16,
        burst: u32,
    },
    Start,
    Admit {
        now: u64,
        row: u8,
        length: u16,
        handle: u32,
    },
    Release {
        now: u64,
    },
    Exchange {
        now: u64,
        row: u8,
        length: u16,
        handle: u32,
    },
    Reading(Reading),
    Show,
    Close,
}

/// The command at the front of the bytes, which are some, and how many of them it takes.
pub fn read(bytes: &[u8]) -> Result<(Command, usize), Fault> {
    let width = match bytes[0] {
        1 => 7,
        3 | 5 => 15,
        4 => 8,
        6 => 9,
        2 | 7 | 8 => 0,
        _ => return Err((14, b'S')),
    };
    let Some(operands) = bytes.get(1..1 + width) else {
        return Err((15, b'S'));
    };
    let u16_at = |i: usize| u16::from_be_bytes(operands[i..i + 2].try_into().unwrap());
    let u32_at = |i: usize| u32::from_be_bytes(operands[i..i + 4].try_into().unwrap());
    let i32_at = |i: usize| i32::from_be_bytes(operands[i..i + 4].try_into().unwrap());
    let u64_at = |i: usize| u64::from_be_bytes(operands[i..i + 8].try_into().unwrap());
    let command = match bytes[0] {
        1 => Command::SetRow {
            row: operands[0],
            pace: u16_at(1),
            burst: u32_at(3),
        },
        2 => Command::Start,
        3 => Command::Admit {
            now: u64_at(0),
            row: operands[8],
            length: u16_at(9),
            handle: u32_at(11),
        },
        4 => Command::Release { now: u64_at(0) },
        5 => Command::Exchange {
            now: u64_at(0),
            row: operands[8],
            length: u16_at(9),
            handle: u32_at(11),
        },
        6 => Command::Reading(Reading {
            row: operands[0],
            position: i32_at(1),
            target: i32_at(5),
        }),
        7 => Command::Show,
        _ => Command::Close,
    };
    Ok((command, 1 + width))
}
