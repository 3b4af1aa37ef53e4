//! The library in another process, which may run on another machine: `bridge.c` with the library,
//! run by a command of the user's choice, takes calls from its input and gives them back answered.
//!
//! A batch is its length in bytes and then calls; each is made of 64-bit numbers: the call, the number
//! count, the numbers, the run count, and for each run the width of a cell, the number of cells with
//! guards, and the cells, filled up to whole numbers. The answer is the same batch, as the calls left
//! it, with the reply in the place of each call's first number.

use crate::call::{Call, Cells};
use std::io::{Read, Write};
use std::process::{Child, ChildStdin, ChildStdout, Command, Stdio};

pub struct Bridge {
    child: Child,
    to: ChildStdin,
    from: ChildStdout,
}

fn put(batch: &mut Vec<u8>, number: u64) {
    batch.extend(number.to_le_bytes());
}

fn put_cells<const WIDTH: usize>(batch: &mut Vec<u8>, cells: impl ExactSizeIterator<Item = [u8; WIDTH]>) {
    put(batch, WIDTH as u64);
    put(batch, cells.len() as u64);
    cells.for_each(|cell| batch.extend(cell));
    batch.resize(batch.len().next_multiple_of(8), 0);
}

/// Appends a call, or with `reply` the answer that is expected to it.
pub fn append(batch: &mut Vec<u8>, call: &Call, reply: Option<u64>) {
    put(batch, reply.unwrap_or(call.name as u64));
    put(batch, call.numbers.len() as u64);
    call.numbers.iter().for_each(|&number| put(batch, number));
    put(batch, call.runs.len() as u64);
    for run in &call.runs {
        match &run.cells {
            Cells::Bytes(cells) => put_cells(batch, cells.iter().map(|cell| cell.to_le_bytes())),
            Cells::Samples(cells) => put_cells(batch, cells.iter().map(|cell| cell.to_le_bytes())),
            Cells::Metrics(cells) => put_cells(batch, cells.iter().map(|cell| cell.to_le_bytes())),
            Cells::Values(cells) => put_cells(batch, cells.iter().map(|cell| cell.to_le_bytes())),
            Cells::Words(cells) => put_cells(batch, cells.iter().map(|cell| cell.to_le_bytes())),
        }
    }
}

fn take<const WIDTH: usize>(bytes: &mut &[u8]) -> [u8; WIDTH] {
    let (cell, rest) = bytes.split_first_chunk().expect("an answer as long as the call");
    *bytes = rest;
    *cell
}

/// The reply in an answered call, whose runs become those of the answer.
pub fn answered(call: &mut Call, mut bytes: &[u8]) -> u64 {
    let reply = u64::from_le_bytes(take(&mut bytes));
    bytes = &bytes[8 * (call.numbers.len() + 2)..];
    for run in &mut call.runs {
        let mut cells = &bytes[16..];
        let size = match &mut run.cells {
            Cells::Bytes(old) => {
                old.iter_mut().map(|cell| *cell = u8::from_le_bytes(take(&mut cells))).count()
            }
            Cells::Samples(old) => {
                2 * old.iter_mut().map(|cell| *cell = i16::from_le_bytes(take(&mut cells))).count()
            }
            Cells::Metrics(old) => {
                4 * old.iter_mut().map(|cell| *cell = i32::from_le_bytes(take(&mut cells))).count()
            }
            Cells::Values(old) => {
                4 * old.iter_mut().map(|cell| *cell = u32::from_le_bytes(take(&mut cells))).count()
            }
            Cells::Words(old) => {
                8 * old.iter_mut().map(|cell| *cell = u64::from_le_bytes(take(&mut cells))).count()
            }
        };
        bytes = &bytes[16 + size.next_multiple_of(8)..];
    }
    reply
}

impl Bridge {
    pub fn start(command: &[String]) -> Bridge {
        let mut start = Command::new(&command[0]);
        let start = start.args(&command[1..]).stdin(Stdio::piped()).stdout(Stdio::piped());
        let mut child = start.spawn().expect("the bridge's command starts");
        let (to, from) = (child.stdin.take().unwrap(), child.stdout.take().unwrap());
        Bridge { child, to, from }
    }

    /// Sends a batch and takes the same number of bytes back. The bridge reads a batch whole before it
    /// writes, so neither waits for the other.
    pub fn ask(&mut self, batch: &[u8]) -> Vec<u8> {
        self.to.write_all(&(batch.len() as u64).to_le_bytes()).expect("the bridge reads");
        self.to.write_all(batch).expect("the bridge reads");
        let mut answer = vec![0; batch.len()];
        self.from.read_exact(&mut answer).expect("the bridge answers");
        answer
    }
}

impl Drop for Bridge {
    fn drop(&mut self) {
        let _ = self.child.kill();
        let _ = self.child.wait();
    }
}
