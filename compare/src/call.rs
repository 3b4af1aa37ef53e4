//! A call of the C interface as data: which call, its numbers, and the runs it is lent.

use std::fmt;

/// Cells kept on each side of a run, to see that nothing outside of it is written.
pub const GUARD: usize = 4;

#[derive(Clone, Copy, Debug, PartialEq, Eq, PartialOrd, Ord)]
pub enum Name {
    Prepare,
    Branch,
    Encode,
    ReadBack,
    Decode,
    WritePlate,
    WriteProfile,
    WriteWord,
    WriteRefused,
    WriteEnd,
    Firmness,
    Metric,
    Word,
    WhyNot,
    DecodeBlocks,
    PlateOfSheet,
    WriteTally,
    WriteWeight,
    WriteLeast,
    WriteNoLeast,
    WidestEntry,
    Level,
    Levels,
    Weights,
    FirmnessAll,
    ReadAlist,
    WriteAlist,
    Judge,
    Listing,
}

/// The cells of a run, guards included. Values of single precision are held as their bits, so that every one equals itself.
#[derive(Clone, PartialEq)]
pub enum Cells {
    Bytes(Vec<u8>),
    Samples(Vec<i16>),
    Metrics(Vec<i32>),
    Values(Vec<u32>),
    Words(Vec<u64>),
}

#[derive(Clone, PartialEq)]
pub struct Run {
    pub name: &'static str,
    pub cells: Cells,
}

#[derive(Clone, PartialEq)]
pub struct Call {
    pub name: Name,
    pub numbers: Vec<u64>,
    pub runs: Vec<Run>,
}

/// Cells between guards of a value that no call would write.
fn guarded<T: Copy>(inner: impl ExactSizeIterator<Item = T>, guard: T) -> Vec<T> {
    let mut cells = Vec::with_capacity(inner.len() + 2 * GUARD);
    cells.extend([guard; GUARD]);
    cells.extend(inner);
    cells.extend([guard; GUARD]);
    cells
}

fn inner<T>(cells: &[T]) -> &[T] {
    &cells[GUARD..cells.len() - GUARD]
}

fn inner_mut<T>(cells: &mut [T]) -> &mut [T] {
    let end = cells.len() - GUARD;
    &mut cells[GUARD..end]
}

/// Unlike values for the cells of a room, so that a cell left alone differs from one written.
fn old(i: usize) -> u64 {
    (i as u64 + 1).wrapping_mul(0xd134_2543_de82_ef95)
}

impl Run {
    pub fn of_words(name: &'static str, words: &[u64]) -> Run {
        Run { name, cells: Cells::Words(guarded(words.iter().copied(), 0x5a5a_5a5a_5a5a_5a5a)) }
    }

    pub fn of_samples(name: &'static str, samples: &[i16]) -> Run {
        Run { name, cells: Cells::Samples(guarded(samples.iter().copied(), 0x5a5a)) }
    }

    pub fn of_values(name: &'static str, values: &[u32]) -> Run {
        Run { name, cells: Cells::Values(guarded(values.iter().copied(), 0x5a5a_5a5a)) }
    }

    pub fn of_bytes(name: &'static str, bytes: &[u8]) -> Run {
        Run { name, cells: Cells::Bytes(guarded(bytes.iter().copied(), 0x5a)) }
    }

    /// A room of so many words, full of old values.
    pub fn room_words(name: &'static str, length: usize) -> Run {
        Run { name, cells: Cells::Words(guarded((0..length).map(old), 0x5a5a_5a5a_5a5a_5a5a)) }
    }

    pub fn room_samples(name: &'static str, length: usize) -> Run {
        let cells = (0..length).map(|i| (old(i) >> 48) as i16);
        Run { name, cells: Cells::Samples(guarded(cells, 0x5a5a)) }
    }

    pub fn room_metrics(name: &'static str, length: usize) -> Run {
        let cells = (0..length).map(|i| (old(i) >> 32) as i32);
        Run { name, cells: Cells::Metrics(guarded(cells, 0x5a5a_5a5a)) }
    }

    pub fn room_bytes(name: &'static str, length: usize) -> Run {
        let cells = (0..length).map(|i| (old(i) >> 56) as u8);
        Run { name, cells: Cells::Bytes(guarded(cells, 0x5a)) }
    }

    /// How many cells are lent.
    pub fn length(&self) -> usize {
        let cells = match &self.cells {
            Cells::Bytes(cells) => cells.len(),
            Cells::Samples(cells) => cells.len(),
            Cells::Metrics(cells) => cells.len(),
            Cells::Values(cells) => cells.len(),
            Cells::Words(cells) => cells.len(),
        };
        cells - 2 * GUARD
    }

    pub fn words(&mut self) -> &mut [u64] {
        match &mut self.cells {
            Cells::Words(cells) => inner_mut(cells),
            _ => unreachable!("{} holds no words", self.name),
        }
    }

    pub fn samples(&mut self) -> &mut [i16] {
        match &mut self.cells {
            Cells::Samples(cells) => inner_mut(cells),
            _ => unreachable!("{} holds no samples", self.name),
        }
    }

    pub fn metrics(&mut self) -> &mut [i32] {
        match &mut self.cells {
            Cells::Metrics(cells) => inner_mut(cells),
            _ => unreachable!("{} holds no metrics", self.name),
        }
    }

    pub fn values(&mut self) -> &mut [u32] {
        match &mut self.cells {
            Cells::Values(cells) => inner_mut(cells),
            _ => unreachable!("{} holds no values", self.name),
        }
    }

    pub fn bytes(&mut self) -> &mut [u8] {
        match &mut self.cells {
            Cells::Bytes(cells) => inner_mut(cells),
            _ => unreachable!("{} holds no bytes", self.name),
        }
    }

    /// The first cell (from 0, guards before it negative) where two runs of one shape differ.
    pub fn difference(&self, other: &Run) -> Option<isize> {
        fn first<T: PartialEq>(a: &[T], b: &[T]) -> Option<isize> {
            let at = a.iter().zip(b).position(|(x, y)| x != y)?;
            Some(at as isize - GUARD as isize)
        }
        match (&self.cells, &other.cells) {
            (Cells::Bytes(a), Cells::Bytes(b)) => first(a, b),
            (Cells::Samples(a), Cells::Samples(b)) => first(a, b),
            (Cells::Metrics(a), Cells::Metrics(b)) => first(a, b),
            (Cells::Values(a), Cells::Values(b)) => first(a, b),
            (Cells::Words(a), Cells::Words(b)) => first(a, b),
            _ => unreachable!("runs of two shapes"),
        }
    }
}

/// A run whole, without its guards; bytes as text, values as their bits.
impl fmt::Display for Run {
    fn fmt(&self, f: &mut fmt::Formatter) -> fmt::Result {
        write!(f, "{} ", self.name)?;
        match &self.cells {
            Cells::Bytes(cells) => {
                write!(f, "[{}] {:?}", inner(cells).len(), String::from_utf8_lossy(inner(cells)))
            }
            Cells::Samples(cells) => write!(f, "[{}] {:?}", inner(cells).len(), inner(cells)),
            Cells::Metrics(cells) => write!(f, "[{}] {:?}", inner(cells).len(), inner(cells)),
            Cells::Values(cells) => write!(f, "[{}] {:x?}", inner(cells).len(), inner(cells)),
            Cells::Words(cells) => write!(f, "[{}] {:x?}", inner(cells).len(), inner(cells)),
        }
    }
}

impl fmt::Display for Call {
    fn fmt(&self, f: &mut fmt::Formatter) -> fmt::Result {
        writeln!(f, "{:?} {:?}", self.name, self.numbers)?;
        self.runs.iter().try_for_each(|run| writeln!(f, "  {run}"))
    }
}
