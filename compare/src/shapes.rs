//! How long each lent run has to be by its use.

use crate::call::{Call, Name, Run};
use crate::plate::PLATE_WORDS;

/// How many cells a run has to have by its use; 0 where no length is fixed.
fn fixed_length(run: &Run) -> usize {
    match run.name {
        "plate" => PLATE_WORDS,
        "counts" | "reason" | "line and field" | "sizes" | "verdict" => 2,
        "metric" | "value" | "difference" | "level" | "next" | "word" | "order" => 1,
        "fixed" | "information" | "written" | "place" | "widest" | "least" => 1,
        "table" | "fixed of all" | "values of all" | "branches" => 64,
        "states" => 65,
        _ => 0,
    }
}

/// Whether a run is shorter than its use fixes, or a matrix is of neither kind.
pub fn misshapen(call: &Call) -> bool {
    let kind_unknown = call.name == Name::Prepare && call.numbers[1] > 1;
    kind_unknown || call.runs.iter().any(|run| run.length() < fixed_length(run))
}
