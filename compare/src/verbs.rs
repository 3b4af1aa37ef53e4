//! What the verbs of `yendrufal` print, by the model: the plate from dependences among columns, the reduced mask as the earliest word,
//! weights by all words of the code or of its dual.

use crate::alist;
use crate::linear::Basis;
use crate::listing::refused_line;
use crate::plate::{prepare, refuse, Kind, Plate, Refusal};
use crate::sheet;
use crate::weights::{least, of_code};
use crate::words::{bit, printed};

/// The earliest word of a plate: position by position 0, unless the later columns cannot make up for it.
pub fn earliest_word(plate: &Plate) -> u64 {
    let mut left = plate.syndrome_of_words();
    let mut word = 0;
    for position in 0..plate.n {
        let mut later = Basis::new();
        for (i, &column) in plate.columns.iter().enumerate().skip(position + 1) {
            later.insert(column, i);
        }
        if later.express(left).is_none() {
            word |= 1 << position;
            left ^= plate.columns[position];
        }
    }
    word
}

/// A sheet by position.
fn sheet_text(n: usize, kind: Kind, mask: u64, rows: &[u64]) -> String {
    let mut text = format!("cover\t{n}\t{kind:?}\tfirst\n");
    if mask != 0 {
        text += &format!("mask\t{}\n", printed(mask, n));
    }
    for &row in rows {
        text += &format!("row\t{}\n", printed(row, n));
    }
    text + "end\n"
}

fn plate_sheet(plate: &Plate) -> String {
    sheet_text(plate.n, Kind::G, earliest_word(plate), &plate.rows)
}

fn other(kind: Kind) -> Kind {
    if kind == Kind::G {
        Kind::H
    } else {
        Kind::G
    }
}

fn dual(bytes: &[u8]) -> Result<Plate, Refusal> {
    let sheet = sheet::read(bytes)?;
    prepare(sheet.plate.n as u64, other(sheet.kind), &sheet.rows)
}

/// The matrix of an alist text that is no longer than a sheet may be.
fn matrix(bytes: &[u8]) -> Result<(usize, Vec<u64>), Refusal> {
    if bytes.len() > 32_768 {
        return refuse(15, 0);
    }
    alist::read(bytes)
}

/// The parity checks of a sheet as alist text: its own rows, or those of the dual's plate.
fn checks(bytes: &[u8]) -> Result<String, Refusal> {
    let sheet = sheet::read(bytes)?;
    let rows = match sheet.kind {
        Kind::G => dual(bytes)?.rows,
        Kind::H => sheet.rows,
    };
    alist::written(sheet.plate.n as u64, &rows, usize::MAX)
}

fn weights(bytes: &[u8]) -> Result<String, Refusal> {
    let Plate { n, rows, .. } = sheet::read(bytes)?.plate;
    if rows.len() == 64 {
        return refuse(22, 0);
    }
    let counts = of_code(&rows, n);
    let lines = counts
        .iter()
        .enumerate()
        .filter(|(_, &number)| number != 0)
        .map(|(weight, number)| format!("weight\t{weight}\t{number}\n"));
    let last = least(&counts).map_or("none".into(), |weight| weight.to_string());
    Ok(lines.collect::<String>() + &format!("least\t{last}\n"))
}

/// What a verb prints of a file's bytes, and its exit status; nothing for a verb that the model does not know.
pub fn answer(verb: &str, bytes: &[u8]) -> Option<(String, i32)> {
    let reply = match verb {
        "list" => {
            let text = sheet::listing(bytes).0;
            let status = i32::from(sheet::read(bytes).is_err());
            return Some((text, status));
        }
        "sheet" => sheet::read(bytes).map(|sheet| plate_sheet(&sheet.plate)),
        "dual" => dual(bytes).map(|plate| plate_sheet(&plate)),
        "weights" => weights(bytes),
        "alist" => checks(bytes),
        "from-alist" => matrix(bytes).map(|(n, rows)| sheet_text(n, Kind::H, 0, &rows)),
        _ => return None,
    };
    Some(reply.map_or_else(|refusal| (refused_line(refusal), 1), |text| (text, 0)))
}

/// The words of a plate by columns: those of which the columns at their ones have this sum. For two plates the columns stand side by side.
struct Set {
    columns: Vec<u128>,
    sum: u128,
}

impl Set {
    fn of(plate: &Plate) -> Set {
        let columns = (0..plate.n).map(|i| u128::from(plate.columns[i])).collect();
        Set { columns, sum: u128::from(plate.syndrome_of_words()) }
    }

    /// The words from the far end.
    fn mirrored(&self) -> Set {
        Set { columns: self.columns.iter().rev().copied().collect(), sum: self.sum }
    }

    /// The words that both have.
    fn both(&self, other: &Set) -> Set {
        let columns = self.columns.iter().zip(&other.columns).map(|(a, b)| a << 64 | b).collect();
        Set { columns, sum: self.sum << 64 | other.sum }
    }

    /// How many positions of the words that begin like this one, as far as position `from`, are free; nothing where there is no such word.
    fn free(&self, word: u64, from: usize) -> Option<usize> {
        let reduced = |basis: &[u128], vector: u128| basis.iter().fold(vector, |left, &b| left.min(left ^ b));
        let begun = (0..from).filter(|&i| bit(word, i) == 1).fold(self.sum, |sum, i| sum ^ self.columns[i]);
        let mut basis: Vec<u128> = Vec::new();
        for &column in &self.columns[from..] {
            let left = reduced(&basis, column);
            if left != 0 {
                basis.push(left);
                basis.sort_unstable_by(|a, b| b.cmp(a));
            }
        }
        (reduced(&basis, begun) == 0).then_some(self.columns.len() - from - basis.len())
    }

    /// Whether some word that begins like this one is not the other's.
    fn has_alone(&self, other: &Set, word: u64, from: usize) -> bool {
        let own = self.free(word, from);
        own.is_some() && own != self.both(other).free(word, from)
    }

    fn is_same(&self, other: &Set) -> bool {
        !self.has_alone(other, 0, 0) && !other.has_alone(self, 0, 0)
    }
}

/// The earliest word that is not in both, bit by bit, and whether it is the first's.
fn earliest_alone(first: &Set, second: &Set) -> (u64, bool) {
    let mut word = 0;
    for position in 0..first.columns.len() {
        if !first.has_alone(second, word, position + 1) && !second.has_alone(first, word, position + 1) {
            word |= 1 << position;
        }
    }
    (word, first.has_alone(second, word, first.columns.len()))
}

/// What `same` prints of two files' bytes, and its exit status.
fn same(first: &[u8], second: &[u8]) -> (String, i32) {
    let plates = sheet::read(first).and_then(|one| sheet::read(second).map(|other| (one.plate, other.plate)));
    let (one, other) = match plates {
        Err(refusal) => return (refused_line(refusal), 1),
        Ok(plates) => plates,
    };
    if one.n != other.n {
        return ("other\n".into(), 1);
    }
    let (first, second) = (Set::of(&one), Set::of(&other));
    if first.is_same(&second) {
        return ("same\n".into(), 0);
    }
    if first.mirrored().is_same(&second) {
        return ("mirrored\n".into(), 1);
    }
    let (word, own) = earliest_alone(&first, &second);
    (format!("other\t{}\t{}\n", printed(word, one.n), if own { "first" } else { "second" }), 1)
}

/// Answers same on two files after two, in INTO/FIRST.SECOND.same.
fn run_same(files: &[String], into: &str) {
    let name = |file: &String| std::path::Path::new(file).file_name().unwrap().to_str().unwrap().to_owned();
    let bytes = |file: &String| std::fs::read(file).expect("the file is there");
    for pair in files.chunks(2) {
        let (text, status) = same(&bytes(&pair[0]), &bytes(&pair[1]));
        let due = format!("{into}/{}.{}.same", name(&pair[0]), name(&pair[1]));
        std::fs::write(due, format!("{text}status {status}\n")).expect("the answer is written");
    }
}

/// Answers a verb on each file named, in INTO/NAME.VERB; a last line has the exit status.
pub fn run(verb: &str, files: &[String], into: &str) {
    if verb == "same" {
        return run_same(files, into);
    }
    for file in files {
        let bytes = std::fs::read(file).expect("the file is there");
        let (text, status) = answer(verb, &bytes).expect("a verb of the model");
        let name = std::path::Path::new(file).file_name().unwrap().to_str().unwrap().to_owned();
        std::fs::write(format!("{into}/{name}.{verb}"), format!("{text}status {status}\n"))
            .expect("the answer is written");
    }
}
