//! The kinds of listing line.

use crate::call::Name;
use crate::plate::{Plate, Refusal};
use crate::words::printed;

pub fn plate_line(plate: &Plate) -> String {
    format!("plate\t{}\t{}\t{}\n", plate.n, plate.k(), plate.widest())
}

pub fn profile_line(plate: &Plate) -> String {
    let entries: String = plate.profile.iter().map(|entry| format!("\t{entry}")).collect();
    format!("profile{entries}\n")
}

/// Only the first n positions of the word are printed.
pub fn word_line(plate: &Plate, word: u64, metric: i32, additions: u64, comparisons: u64) -> String {
    format!("word\t{}\t{metric}\t{additions}\t{comparisons}\n", printed(word, plate.n))
}

/// A sheet's bad line is told by line and field, everything else by its place.
pub fn refused_line(refusal: Refusal) -> String {
    let Refusal { number, place, field } = refusal;
    match number {
        10 | 17 | 18 | 19 | 20 => format!("refused\t{number}\t{place}\t{field}\n"),
        _ => format!("refused\t{number}\t{place}\n"),
    }
}

pub fn end_line(count: u64) -> String {
    format!("end\t{count}\n")
}

pub fn tally_line(numbers: &[i64; 9]) -> String {
    let fields: String = numbers.iter().map(|number| format!("\t{number}")).collect();
    format!("tally{fields}\n")
}

/// The lines of numbers alone, by what stands before them. The sum of metrics is given as what is above 0 and what is below.
pub fn numbers_line(name: Name, numbers: &[u64]) -> String {
    match name {
        Name::WriteTally => {
            let sum = i128::from(numbers[7]) - i128::from(numbers[8]);
            let counts: Vec<String> = numbers[..7].iter().map(u64::to_string).collect();
            format!("tally\t{}\t{sum}\t{}\n", counts.join("\t"), numbers[0])
        }
        Name::WriteWeight => format!("weight\t{}\t{}\n", numbers[0], numbers[1]),
        Name::WriteLeast => format!("least\t{}\n", numbers[0]),
        Name::WriteNoLeast => "least\tnone\n".to_string(),
        _ => unreachable!("no line of numbers alone"),
    }
}
