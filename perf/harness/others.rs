//! Other queues of the same meaning, over what Rust has at hand.
use crate::queues::{BLANK, EMPTY, Queue, Record};
use std::cmp::Reverse;
use std::collections::{BTreeSet, BinaryHeap};

/// Ascending cells as a Rust programmer would keep them: place by halving, then one move of memory.
pub struct Array<R> {
    cells: Vec<R>,
    capacity: usize,
}

impl<R: Record> Array<R> {
    pub fn new(capacity: usize) -> Self {
        Array {
            cells: Vec::with_capacity(capacity),
            capacity,
        }
    }
}

impl<R: Record> Queue<R> for Array<R> {
    fn put(&mut self, x: R) -> Result<Option<R>, u8> {
        if x == R::BLANK {
            return Err(BLANK);
        }
        // the old last record leaves before the newcomer is placed
        let out = if self.cells.len() == self.capacity {
            self.cells.pop()
        } else {
            None
        };
        let at = self.cells.partition_point(|y| *y < x);
        self.cells.insert(at, x);
        Ok(out)
    }

    fn take(&mut self) -> Result<R, u8> {
        if self.cells.is_empty() {
            return Err(EMPTY);
        }
        Ok(self.cells.remove(0))
    }

    fn exchange(&mut self, x: R) -> Result<R, u8> {
        if x == R::BLANK {
            return Err(BLANK);
        }
        if self.cells.is_empty() {
            return Err(EMPTY);
        }
        let first = self.cells[0];
        let at = 1 + self.cells[1..].partition_point(|y| *y < x);
        self.cells.copy_within(1..at, 0);
        self.cells[at - 1] = x;
        Ok(first)
    }

    fn first(&self) -> Option<R> {
        self.cells.first().copied()
    }

    fn len(&self) -> usize {
        self.cells.len()
    }

    fn capacity(&self) -> usize {
        self.capacity
    }
}

/// A `BTreeSet` that drops its last when full. No two telegrams of a mix are equal.
pub struct Tree<R> {
    set: BTreeSet<R>,
    capacity: usize,
}

impl<R: Record> Tree<R> {
    pub fn new(capacity: usize) -> Self {
        Tree {
            set: BTreeSet::new(),
            capacity,
        }
    }
}

impl<R: Record> Queue<R> for Tree<R> {
    fn put(&mut self, x: R) -> Result<Option<R>, u8> {
        if x == R::BLANK {
            return Err(BLANK);
        }
        let out = if self.set.len() == self.capacity {
            self.set.pop_last()
        } else {
            None
        };
        self.set.insert(x);
        Ok(out)
    }

    fn take(&mut self) -> Result<R, u8> {
        self.set.pop_first().ok_or(EMPTY)
    }

    fn exchange(&mut self, x: R) -> Result<R, u8> {
        if x == R::BLANK {
            return Err(BLANK);
        }
        let first = self.set.pop_first().ok_or(EMPTY)?;
        self.set.insert(x);
        Ok(first)
    }

    fn first(&self) -> Option<R> {
        self.set.first().copied()
    }

    fn len(&self) -> usize {
        self.set.len()
    }

    fn capacity(&self) -> usize {
        self.capacity
    }
}

/// A `BinaryHeap`. It cannot find its last, so it is called only where nothing is displaced.
pub struct Heap<R: Ord> {
    heap: BinaryHeap<Reverse<R>>,
    capacity: usize,
}

impl<R: Record> Heap<R> {
    pub fn new(capacity: usize) -> Self {
        Heap {
            heap: BinaryHeap::with_capacity(capacity),
            capacity,
        }
    }
}

impl<R: Record> Queue<R> for Heap<R> {
    fn put(&mut self, x: R) -> Result<Option<R>, u8> {
        if x == R::BLANK {
            return Err(BLANK);
        }
        assert!(self.heap.len() < self.capacity, "the heap is full");
        self.heap.push(Reverse(x));
        Ok(None)
    }

    fn take(&mut self) -> Result<R, u8> {
        self.heap.pop().map(|Reverse(x)| x).ok_or(EMPTY)
    }

    fn exchange(&mut self, x: R) -> Result<R, u8> {
        if x == R::BLANK {
            return Err(BLANK);
        }
        let Some(mut top) = self.heap.peek_mut() else {
            return Err(EMPTY);
        };
        let Reverse(first) = *top;
        *top = Reverse(x);
        Ok(first)
    }

    fn first(&self) -> Option<R> {
        self.heap.peek().map(|Reverse(x)| *x)
    }

    fn len(&self) -> usize {
        self.heap.len()
    }

    fn capacity(&self) -> usize {
        self.capacity
    }
}
