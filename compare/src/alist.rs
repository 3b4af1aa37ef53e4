//! Parity checks as alist text: reading line by line into lists of indices, and writing from a table of ones and zeros.

use crate::asked::Rooms;
use crate::call::{Call, Name, Run};
use crate::model::{refused_at, DONE};
use crate::plate::{check_columns, refuse, Kind, Refusal};
use crate::words::bit;
use std::collections::BTreeSet;

/// So many rows has the table that reading fills.
pub const TABLE: usize = 64;

/// Which row has a one in which column, both from 0.
type Ones = BTreeSet<(usize, usize)>;

/// A number as we write it: digits, no leading zero but for 0 itself. One of more than nine digits is larger than anything asked for.
fn number(text: &[u8]) -> Option<usize> {
    let plain = text == b"0" || !text.starts_with(b"0");
    if text.is_empty() || !plain || !text.iter().all(u8::is_ascii_digit) {
        return None;
    }
    Some(std::str::from_utf8(text).unwrap().parse().unwrap_or(usize::MAX))
}

/// The numbers of a line without its line feed: one or several spaces between two of them, none before or after.
fn numbers(line: &[u8]) -> Option<Vec<usize>> {
    if line.is_empty() {
        return Some(Vec::new());
    }
    if line.starts_with(b" ") || line.ends_with(b" ") {
        return None;
    }
    line.split(|&byte| byte == b' ').filter(|part| !part.is_empty()).map(number).collect()
}

/// The lines of a text as their numbers, none where a line has something else; a last line that is not ended is none either.
struct Lines {
    numbers: Vec<Option<Vec<usize>>>,
}

impl Lines {
    fn of(text: &[u8]) -> Lines {
        let mut parts: Vec<&[u8]> = text.split(|&byte| byte == b'\n').collect();
        let unended = !parts.pop().expect("a part at least").is_empty();
        let mut found: Vec<_> = parts.into_iter().map(numbers).collect();
        if unended {
            found.push(None);
        }
        Lines { numbers: found }
    }

    /// The numbers of a line, counted from 1, where they are so many and pass a test; else it is the line at fault.
    fn take(&self, line: usize, count: usize, test: impl Fn(&[usize]) -> bool) -> Result<&[usize], Refusal> {
        match self.numbers.get(line - 1) {
            Some(Some(found)) if found.len() == count && test(found) => Ok(found),
            _ => refuse(16, line),
        }
    }
}

/// A list has its weight: so many indices from 1 to the size, none twice, then zeros.
fn is_list(list: &[usize], weight: usize, size: usize) -> bool {
    if weight > list.len() {
        return false;
    }
    let (indices, rest) = list.split_at(weight);
    let different: BTreeSet<usize> = indices.iter().copied().collect();
    different.len() == weight
        && different.iter().all(|index| (1..=size).contains(index))
        && rest.iter().all(|&index| index == 0)
}

/// The matrix of a text: the number of its columns and its rows as words; or 16 with the first line at fault.
pub fn read(text: &[u8]) -> Result<(usize, Vec<u64>), Refusal> {
    let lines = Lines::of(text);
    let sizes = lines.take(1, 2, |sizes| sizes.iter().all(|size| (1..=64).contains(size)))?;
    let (n, m) = (sizes[0], sizes[1]);
    let most = lines.take(2, 2, |most| most[0] <= m && most[1] <= n)?;
    let met = |weights: &[usize], most: usize| weights.iter().max() == Some(&most);
    let column_weights = lines.take(3, n, |weights| met(weights, most[0]))?;
    let row_weights = lines.take(4, m, |weights| met(weights, most[1]))?;
    let mut ones = Ones::new();
    for (column, &weight) in column_weights.iter().enumerate() {
        let list = lines.take(5 + column, most[0], |list| is_list(list, weight, m))?;
        ones.extend(list[..weight].iter().map(|row| (row - 1, column)));
    }
    for (row, &weight) in row_weights.iter().enumerate() {
        let shown: BTreeSet<usize> = (0..n).filter(|&column| ones.contains(&(row, column))).collect();
        lines.take(5 + n + row, most[1], |list| {
            let told: BTreeSet<usize> =
                list.iter().filter(|&&index| index > 0).map(|index| index - 1).collect();
            is_list(list, weight, n) && told == shown
        })?;
    }
    if lines.numbers.len() > 4 + n + m {
        return refuse(16, 5 + n + m);
    }
    let row = |row: usize| (0..n).filter(|&c| ones.contains(&(row, c))).fold(0u64, |word, c| word | 1 << c);
    Ok((n, (0..m).map(row).collect()))
}

fn line(numbers: &[usize]) -> String {
    numbers.iter().map(usize::to_string).collect::<Vec<_>>().join(" ") + "\n"
}

/// The lists of a table's lines, padded with zeros to the longest, with the weights before them.
fn lists(table: &[Vec<bool>]) -> (Vec<usize>, Vec<Vec<usize>>) {
    let indices = |cells: &Vec<bool>| (1..=cells.len()).filter(|&i| cells[i - 1]).collect::<Vec<usize>>();
    let mut found: Vec<Vec<usize>> = table.iter().map(indices).collect();
    let weights: Vec<usize> = found.iter().map(Vec::len).collect();
    let most = *weights.iter().max().expect("a line at least");
    found.iter_mut().for_each(|list| list.resize(most, 0));
    (weights, found)
}

/// The text of a matrix that is in order.
pub fn text(n: usize, rows: &[u64]) -> String {
    let by_row: Vec<Vec<bool>> = rows.iter().map(|&row| (0..n).map(|i| bit(row, i) == 1).collect()).collect();
    let by_column: Vec<Vec<bool>> = (0..n).map(|i| by_row.iter().map(|row| row[i]).collect()).collect();
    let ((column_weights, columns), (row_weights, rows)) = (lists(&by_column), lists(&by_row));
    let most = [columns[0].len(), rows[0].len()];
    let head = [line(&[columns.len(), rows.len()]), line(&most), line(&column_weights), line(&row_weights)];
    head.into_iter().chain(columns.iter().chain(&rows).map(|list| line(list))).collect()
}

/// Refusals 1 to 3, 16 and 11, or the text.
pub fn written(n: u64, rows: &[u64], room: usize) -> Result<String, Refusal> {
    check_columns(n, Kind::H, rows)?;
    if rows.is_empty() {
        return refuse(16, 0);
    }
    let text = text(n as usize, rows);
    if text.len() > room {
        return refuse(11, 0);
    }
    Ok(text)
}

pub fn answer_read(runs: &mut [Run]) -> u64 {
    let [text, sizes, table, place] = runs else { unreachable!("reading has four runs") };
    match read(text.bytes()) {
        Ok((n, rows)) => {
            sizes.words()[..2].copy_from_slice(&[n as u64, rows.len() as u64]);
            table.words()[..TABLE].fill(0);
            table.words()[..rows.len()].copy_from_slice(&rows);
            place.words()[0] = 0;
            DONE
        }
        Err(refusal) => refused_at(refusal, place),
    }
}

pub fn answer_write(numbers: &[u64], runs: &mut [Run]) -> u64 {
    let [rows, room, size, place] = runs else { unreachable!("writing has four runs") };
    match written(numbers[0], rows.words(), room.length()) {
        Ok(text) => {
            room.bytes()[..text.len()].copy_from_slice(text.as_bytes());
            size.words()[0] = text.len() as u64;
            place.words()[0] = 0;
            DONE
        }
        Err(refusal) => refused_at(refusal, place),
    }
}

/// The call that reads a text, with so many rows lent.
pub fn asked_read(text: &[u8], table: usize, rooms: Rooms) -> Call {
    let runs = vec![
        Run::of_bytes("text", text),
        Run::room_words("sizes", rooms.counts),
        Run::room_words("table", table),
        Run::room_words("place", rooms.place),
    ];
    Call { name: Name::ReadAlist, numbers: vec![], runs }
}

/// The call that writes a matrix into a room of so many bytes.
pub fn asked_write(n: u64, rows: &[u64], room: usize, rooms: Rooms) -> Call {
    let runs = vec![
        Run::of_words("rows", rows),
        Run::room_bytes("room", room),
        Run::room_words("written", rooms.single),
        Run::room_words("place", rooms.place),
    ];
    Call { name: Name::WriteAlist, numbers: vec![n], runs }
}
