//! A grouped queue in plain Rust that is asked for the number held before each put, as an admission asks
//! it, and ways to tell that number.
use crate::queues::{Grouped, Queue, Record, Telegram};

#[derive(Clone, Copy)]
pub enum Told {
    /// by a field
    Field,
    /// by counting the cells that hold a record
    Count,
    /// by halving: the cells that hold a record stand before those that hold none
    Halving,
}

pub struct Asked {
    below: Grouped<Telegram>,
    told: Told,
    /// the sum of all numbers told
    pub sum: usize,
}

impl Asked {
    pub fn new(below: Grouped<Telegram>, told: Told) -> Asked {
        Asked {
            below,
            told,
            sum: 0,
        }
    }
}

impl Queue<Telegram> for Asked {
    fn put(&mut self, x: Telegram) -> Result<Option<Telegram>, u8> {
        self.sum += self.len();
        self.below.put(x)
    }

    fn take(&mut self) -> Result<Telegram, u8> {
        self.below.take()
    }

    fn exchange(&mut self, x: Telegram) -> Result<Telegram, u8> {
        self.below.exchange(x)
    }

    fn first(&self) -> Option<Telegram> {
        self.below.first()
    }

    fn len(&self) -> usize {
        let cells = self.below.cells();
        match self.told {
            Told::Field => self.below.len(),
            Told::Count => cells.iter().filter(|x| **x != Telegram::BLANK).count(),
            Told::Halving => cells.partition_point(|x| *x != Telegram::BLANK),
        }
    }

    fn capacity(&self) -> usize {
        self.below.capacity()
    }
}
