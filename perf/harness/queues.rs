//! The queues of docs/QUEUES.md in plain Rust, written from that document.

/// A kind of record: its derived order, and the blank, which stands last.
pub trait Record: Copy + Ord {
    const BLANK: Self;
}

#[derive(Clone, Copy, PartialEq, Eq, PartialOrd, Ord, Debug)]
pub struct Telegram {
    pub release: u64,
    pub number: u32,
    pub row: u8,
    pub length: u16,
    pub handle: u32,
}

impl Record for Telegram {
    const BLANK: Telegram = Telegram {
        release: u64::MAX,
        number: u32::MAX,
        row: u8::MAX,
        length: u16::MAX,
        handle: u32::MAX,
    };
}

/// Refusals by their numbers.
pub const EMPTY: u8 = 8;
pub const BLANK: u8 = 11;

pub trait Queue<R> {
    /// The record that was displaced, if any.
    fn put(&mut self, x: R) -> Result<Option<R>, u8>;
    fn take(&mut self) -> Result<R, u8>;
    fn exchange(&mut self, x: R) -> Result<R, u8>;
    fn first(&self) -> Option<R>;
    fn len(&self) -> usize;
    fn capacity(&self) -> usize;
}

/// Drops the last cell and sets x among the others, from the end.
fn replace_last<R: Record>(cells: &mut [R], x: R) -> R {
    let mut at = cells.len() - 1;
    let last = cells[at];
    while at > 0 && cells[at - 1] > x {
        cells[at] = cells[at - 1];
        at -= 1;
    }
    cells[at] = x;
    last
}

/// Drops the first cell and sets x among the others, from the front.
fn replace_first<R: Record>(cells: &mut [R], x: R) -> R {
    let first = cells[0];
    let mut at = 0;
    while at + 1 < cells.len() && cells[at + 1] < x {
        cells[at] = cells[at + 1];
        at += 1;
    }
    cells[at] = x;
    first
}

/// m groups of N cells.
pub struct Grouped<R> {
    cells: Vec<R>,
    size: usize,
    held: usize,
}

impl<R: Record> Grouped<R> {
    pub fn new(groups: usize, size: usize) -> Self {
        Grouped {
            cells: vec![R::BLANK; groups * size],
            size,
            held: 0,
        }
    }

    pub fn cells(&self) -> &[R] {
        &self.cells
    }
}

impl<R: Record> Queue<R> for Grouped<R> {
    fn put(&mut self, x: R) -> Result<Option<R>, u8> {
        if x == R::BLANK {
            return Err(BLANK);
        }
        let mut moving = x;
        for group in self.cells.chunks_exact_mut(self.size) {
            moving = replace_last(group, moving);
        }
        if moving == R::BLANK {
            self.held += 1;
            return Ok(None);
        }
        Ok(Some(moving))
    }

    fn take(&mut self) -> Result<R, u8> {
        let first = self.cells[0];
        if first == R::BLANK {
            return Err(EMPTY);
        }
        self.held -= 1;
        let mut start = 0;
        while start < self.cells.len() {
            let end = start + self.size;
            let next = self.cells.get(end).copied().unwrap_or(R::BLANK);
            replace_first(&mut self.cells[start..end], next);
            start = end;
        }
        Ok(first)
    }

    fn exchange(&mut self, x: R) -> Result<R, u8> {
        if x == R::BLANK {
            return Err(BLANK);
        }
        let first = self.cells[0];
        if first == R::BLANK {
            return Err(EMPTY);
        }
        let mut coming = x;
        let mut start = 0;
        while start < self.cells.len() {
            let end = start + self.size;
            let next = self.cells.get(end).copied().unwrap_or(R::BLANK);
            let group = &mut self.cells[start..end];
            let last = group[group.len() - 1];
            let later = last.max(next);
            replace_last(&mut group[1..], last.min(next));
            replace_first(group, coming);
            coming = later;
            start = end;
        }
        Ok(first)
    }

    fn first(&self) -> Option<R> {
        Some(self.cells[0]).filter(|x| *x != R::BLANK)
    }

    fn len(&self) -> usize {
        self.held
    }

    fn capacity(&self) -> usize {
        self.cells.len()
    }
}

/// Ascending cells, moved one by one as the Rattle code does.
pub struct Sorted<R> {
    cells: Vec<R>,
    held: usize,
}

impl<R: Record> Sorted<R> {
    pub fn new(count: usize) -> Self {
        Sorted {
            cells: vec![R::BLANK; count],
            held: 0,
        }
    }
}

impl<R: Record> Queue<R> for Sorted<R> {
    fn put(&mut self, x: R) -> Result<Option<R>, u8> {
        if x == R::BLANK {
            return Err(BLANK);
        }
        let end = (self.held + 1).min(self.cells.len());
        let out = replace_last(&mut self.cells[..end], x);
        if out == R::BLANK {
            self.held += 1;
            return Ok(None);
        }
        Ok(Some(out))
    }

    fn take(&mut self) -> Result<R, u8> {
        if self.held == 0 {
            return Err(EMPTY);
        }
        let first = replace_first(&mut self.cells[..self.held], R::BLANK);
        self.held -= 1;
        Ok(first)
    }

    fn exchange(&mut self, x: R) -> Result<R, u8> {
        if x == R::BLANK {
            return Err(BLANK);
        }
        if self.held == 0 {
            return Err(EMPTY);
        }
        Ok(replace_first(&mut self.cells[..self.held], x))
    }

    fn first(&self) -> Option<R> {
        self.cells[..self.held].first().copied()
    }

    fn len(&self) -> usize {
        self.held
    }

    fn capacity(&self) -> usize {
        self.cells.len()
    }
}

/// One record or none beside a queue.
pub struct Side<R, Q> {
    cell: Option<R>,
    below: Q,
}

impl<R: Record, Q: Queue<R>> Side<R, Q> {
    pub fn new(below: Q) -> Self {
        Side { cell: None, below }
    }

    /// Whether the cell holds the first record of all, the cell's on a tie.
    fn leads(&self) -> bool {
        match (self.cell, self.below.first()) {
            (None, _) => false,
            (Some(_), None) => true,
            (Some(cell), Some(first)) => cell <= first,
        }
    }
}

impl<R: Record, Q: Queue<R>> Queue<R> for Side<R, Q> {
    fn put(&mut self, x: R) -> Result<Option<R>, u8> {
        if x == R::BLANK {
            return Err(BLANK);
        }
        match self.cell {
            None => {
                self.cell = Some(x);
                Ok(None)
            }
            Some(cell) if cell <= x => self.below.put(x),
            Some(cell) => {
                self.cell = Some(x);
                self.below.put(cell)
            }
        }
    }

    fn take(&mut self) -> Result<R, u8> {
        if self.leads() {
            return self.cell.take().ok_or(EMPTY);
        }
        self.below.take()
    }

    fn exchange(&mut self, x: R) -> Result<R, u8> {
        if x == R::BLANK {
            return Err(BLANK);
        }
        if self.leads() {
            return self.cell.replace(x).ok_or(EMPTY);
        }
        self.below.exchange(x)
    }

    fn first(&self) -> Option<R> {
        if self.leads() {
            self.cell
        } else {
            self.below.first()
        }
    }

    fn len(&self) -> usize {
        self.below.len() + usize::from(self.cell.is_some())
    }

    fn capacity(&self) -> usize {
        self.below.capacity() + 1
    }
}
