//! Encoding by the definition, and reading back by solving for the rows.

use crate::linear::Basis;
use crate::plate::{refuse, Plate, Refusal};
use crate::words::{bit, ones_before};

/// The sum of the rows that the information takes, and the mask.
pub fn encode(plate: &Plate, information: u64) -> Result<u64, Refusal> {
    if information & !ones_before(plate.k()) != 0 {
        return refuse(13, 0);
    }
    let taken = plate.rows.iter().enumerate().filter(|(j, _)| bit(information, *j) == 1);
    Ok(taken.fold(plate.mask, |word, (_, row)| word ^ row))
}

/// The information whose rows, with the mask, add up to the word.
pub fn read_back(plate: &Plate, word: u64) -> Result<u64, Refusal> {
    let mut basis = Basis::new();
    for (j, &row) in plate.rows.iter().enumerate() {
        basis.insert(row, j);
    }
    basis.express(word ^ plate.mask).map_or(refuse(14, 0), Ok)
}
