//! Makers of calls. `Rooms` says how long the lent runs are, so that any of them can be too short.

use crate::call::{Call, Name, Run};
use crate::plate::{Refusal, PLATE_WORDS};

/// Lengths of lent runs, other than the working rooms: by default what each use fixes.
#[derive(Clone, Copy)]
pub struct Rooms {
    pub plate: usize,
    pub single: usize,
    pub counts: usize,
    pub place: usize,
}

pub const FIXED: Rooms = Rooms { plate: PLATE_WORDS, single: 1, counts: 2, place: 1 };

/// A plate as it is lent: cut or lengthened to the wanted number of cells.
pub fn lent_plate(flat: &[u64], rooms: Rooms) -> Run {
    let mut words = flat.to_vec();
    words.resize(rooms.plate, 0);
    Run::of_words("plate", &words)
}

/// Preparing without a mask.
pub fn prepare(n: u64, kind: u64, rows: &[u64], rooms: Rooms) -> Call {
    prepare_masked(n, kind, rows, 0, rooms)
}

pub fn prepare_masked(n: u64, kind: u64, rows: &[u64], mask: u64, rooms: Rooms) -> Call {
    let runs = vec![
        Run::of_words("rows", rows),
        Run::room_words("plate", rooms.plate),
        Run::room_words("place", rooms.place),
    ];
    Call { name: Name::Prepare, numbers: vec![n, kind, mask], runs }
}

pub fn plate_of_sheet(sheet: &[u8], rooms: Rooms) -> Call {
    let runs = vec![
        Run::of_bytes("sheet", sheet),
        Run::room_words("plate", rooms.plate),
        Run::room_words("order", rooms.single),
        Run::room_words("line and field", rooms.counts),
    ];
    Call { name: Name::PlateOfSheet, numbers: vec![], runs }
}

pub fn branch(flat: &[u64], depth: u64, state: u64, bit: u64, rooms: Rooms) -> Call {
    let runs = vec![lent_plate(flat, rooms), Run::room_words("next", rooms.single)];
    Call { name: Name::Branch, numbers: vec![depth, state, bit], runs }
}

pub fn widest(flat: &[u64], rooms: Rooms) -> Call {
    let runs = vec![lent_plate(flat, rooms), Run::room_words("widest", rooms.single)];
    Call { name: Name::WidestEntry, numbers: vec![], runs }
}

/// `counts` and `working`: how many cells of each are lent.
pub fn weights(flat: &[u64], counts: usize, working: usize, rooms: Rooms) -> Call {
    let runs = vec![
        lent_plate(flat, rooms),
        Run::room_words("weights", counts),
        Run::room_words("working", working),
        Run::room_words("least", rooms.single),
    ];
    Call { name: Name::Weights, numbers: vec![], runs }
}

pub fn encode(flat: &[u64], information: u64, rooms: Rooms) -> Call {
    let runs = vec![lent_plate(flat, rooms), Run::room_words("word", rooms.single)];
    Call { name: Name::Encode, numbers: vec![information], runs }
}

pub fn read_back(flat: &[u64], word: u64, rooms: Rooms) -> Call {
    let runs = vec![lent_plate(flat, rooms), Run::room_words("information", rooms.single)];
    Call { name: Name::ReadBack, numbers: vec![word], runs }
}

pub fn decode(flat: &[u64], samples: &[i16], metrics: usize, decisions: usize, rooms: Rooms) -> Call {
    let runs = vec![
        lent_plate(flat, rooms),
        Run::of_samples("samples", samples),
        Run::room_metrics("metrics", metrics),
        Run::room_words("decisions", decisions),
        Run::room_words("word", rooms.single),
        Run::room_metrics("metric", rooms.single),
        Run::room_words("counts", rooms.counts),
        Run::room_words("place", rooms.place),
    ];
    Call { name: Name::Decode, numbers: vec![], runs }
}

/// `answers`: how many words and how many scores are lent.
pub fn decode_blocks(
    flat: &[u64],
    samples: &[i16],
    answers: (usize, usize),
    working: (usize, usize),
    rooms: Rooms,
) -> Call {
    let runs = vec![
        lent_plate(flat, rooms),
        Run::of_samples("samples", samples),
        Run::room_metrics("metrics", working.0),
        Run::room_words("decisions", working.1),
        Run::room_words("words", answers.0),
        Run::room_metrics("scores", answers.1),
        Run::room_words("counts", rooms.counts),
        Run::room_words("place", rooms.place),
    ];
    Call { name: Name::DecodeBlocks, numbers: vec![], runs }
}

pub fn metric(flat: &[u64], samples: &[i16], metrics: usize, rooms: Rooms) -> Call {
    let runs = vec![
        lent_plate(flat, rooms),
        Run::of_samples("samples", samples),
        Run::room_metrics("metrics", metrics),
        Run::room_metrics("metric", rooms.single),
        Run::room_words("counts", rooms.counts),
        Run::room_words("place", rooms.place),
    ];
    Call { name: Name::Metric, numbers: vec![], runs }
}

pub fn word(flat: &[u64], samples: &[i16], metrics: usize, decisions: usize, rooms: Rooms) -> Call {
    let runs = vec![
        lent_plate(flat, rooms),
        Run::of_samples("samples", samples),
        Run::room_metrics("metrics", metrics),
        Run::room_words("decisions", decisions),
        Run::room_words("word", rooms.single),
        Run::room_words("counts", rooms.counts),
        Run::room_words("place", rooms.place),
    ];
    Call { name: Name::Word, numbers: vec![], runs }
}

pub fn firmness(
    flat: &[u64],
    samples: &[i16],
    position: u64,
    metrics: usize,
    decisions: usize,
    rooms: Rooms,
) -> Call {
    let runs = vec![
        lent_plate(flat, rooms),
        Run::of_samples("samples", samples),
        Run::room_metrics("metrics", metrics),
        Run::room_words("decisions", decisions),
        Run::room_words("fixed", rooms.single),
        Run::room_metrics("value", rooms.single),
        Run::room_words("place", rooms.place),
    ];
    Call { name: Name::Firmness, numbers: vec![position], runs }
}

/// `readings`: how many cells are lent for each half of the readings.
pub fn firmness_all(
    flat: &[u64],
    samples: &[i16],
    working: (usize, usize),
    readings: (usize, usize),
    rooms: Rooms,
) -> Call {
    let runs = vec![
        lent_plate(flat, rooms),
        Run::of_samples("samples", samples),
        Run::room_metrics("metrics", working.0),
        Run::room_words("decisions", working.1),
        Run::room_words("fixed of all", readings.0),
        Run::room_metrics("values of all", readings.1),
        Run::room_words("place", rooms.place),
    ];
    Call { name: Name::FirmnessAll, numbers: vec![], runs }
}

pub fn why_not(
    flat: &[u64],
    samples: &[i16],
    word: u64,
    metrics: usize,
    decisions: usize,
    rooms: Rooms,
) -> Call {
    let runs = vec![
        lent_plate(flat, rooms),
        Run::of_samples("samples", samples),
        Run::room_metrics("metrics", metrics),
        Run::room_words("decisions", decisions),
        Run::room_words("reason", rooms.counts),
        Run::room_metrics("difference", rooms.single),
        Run::room_words("place", rooms.place),
    ];
    Call { name: Name::WhyNot, numbers: vec![word], runs }
}

pub fn write_plate(flat: &[u64], line: usize, rooms: Rooms) -> Call {
    let runs = vec![
        lent_plate(flat, rooms),
        Run::room_bytes("line", line),
        Run::room_words("written", rooms.single),
    ];
    Call { name: Name::WritePlate, numbers: vec![], runs }
}

pub fn write_profile(flat: &[u64], line: usize, rooms: Rooms) -> Call {
    Call { name: Name::WriteProfile, ..write_plate(flat, line, rooms) }
}

/// `values`: the word, the metric, the additions and the comparisons.
pub fn write_word(flat: &[u64], values: (u64, i32, u64, u64), line: usize, rooms: Rooms) -> Call {
    let (word, metric, additions, comparisons) = values;
    let numbers = vec![word, metric as i64 as u64, additions, comparisons];
    Call { name: Name::WriteWord, numbers, ..write_plate(flat, line, rooms) }
}

pub fn write_refused(refusal: Refusal, line: usize, rooms: Rooms) -> Call {
    let Refusal { number, place, field } = refusal;
    let runs = vec![Run::room_bytes("line", line), Run::room_words("written", rooms.single)];
    Call { name: Name::WriteRefused, numbers: vec![number, place, field], runs }
}

pub fn write_end(count: u64, line: usize, rooms: Rooms) -> Call {
    let refusal = Refusal { number: 0, place: 0, field: 0 };
    Call { name: Name::WriteEnd, numbers: vec![count], ..write_refused(refusal, line, rooms) }
}

/// A line of numbers alone: `tally`, `weight` or `least`.
pub fn write_numbers(name: Name, numbers: &[u64], line: usize, rooms: Rooms) -> Call {
    Call { name, numbers: numbers.to_vec(), ..write_end(0, line, rooms) }
}

pub fn listing(sheet: &[u8], metrics: usize, decisions: usize, listing: usize, rooms: Rooms) -> Call {
    let runs = vec![
        Run::of_bytes("sheet", sheet),
        Run::room_metrics("metrics", metrics),
        Run::room_words("decisions", decisions),
        Run::room_bytes("listing", listing),
        Run::room_words("written", rooms.single),
    ];
    Call { name: Name::Listing, numbers: vec![], runs }
}
