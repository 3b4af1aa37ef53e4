//! The widest entry, the weights and the readings of all positions: rooms, samples and runs at their bounds, in every order of refusals.

use crate::asked::{self, Rooms, FIXED};
use crate::comparison::Comparison;
use crate::header;
use crate::plate::{prepare, prepare_masked, Kind, Plate, PLATE_WORDS};
use crate::random::{samples, Random};
use crate::rooms::plates;
use crate::weights::{effort, working_needed, COUNTS};

/// Both runs for the readings of all positions.
pub const READINGS: (usize, usize) = (64, 64);

/// Weights in rooms about their lengths; in fewer on a wide plate, whose rooms are long.
fn weight_rooms(comparison: &mut Comparison, plate: &Plate) {
    let (flat, needed) = (plate.flat(), working_needed(plate));
    let wide = plate.widest() > 6;
    let lengths = [COUNTS, COUNTS - 1, 0, 1, plate.n + 1, COUNTS + 1, COUNTS + 9];
    for counts in lengths.into_iter().take(if wide { 3 } else { 7 }) {
        let lengths = [needed, needed - 1, 0, 1, needed + 1, needed + 17];
        for working in lengths.into_iter().take(if wide { 3 } else { 6 }) {
            comparison.agree(asked::weights(&flat, counts, working, FIXED));
        }
    }
}

/// Plates with k of 63 and 64, where 22 comes before 8; with a mask and without.
fn whole_spaces(comparison: &mut Comparison) {
    for mask in [0, 1, u64::MAX] {
        for rows in [&[][..], &[1 << 17], &[u64::MAX], &[3]] {
            let plate = prepare_masked(64, Kind::H, rows, mask).unwrap();
            for (counts, working) in [(65, 260), (65, 130), (65, 129), (64, 260), (64, 0), (0, 0)] {
                comparison.agree(asked::weights(&plate.flat(), counts, working, FIXED));
            }
        }
        let whole = prepare_masked(63, Kind::H, &[], mask >> 1).unwrap();
        comparison.agree(asked::weights(&whole.flat(), 65, 130, FIXED));
    }
    let zero = prepare(64, Kind::G, &[]).unwrap();
    comparison.agree(asked::weights(&zero.flat(), 65, 130, FIXED));
}

/// All positions: working rooms about what they need.
fn working_rooms(comparison: &mut Comparison, random: &mut Random, plate: &Plate) {
    let (flat, (metrics, decisions)) = (plate.flat(), header::rooms(plate));
    let ask = |comparison: &mut Comparison, block: &[i16], working| {
        comparison.agree(asked::firmness_all(&flat, block, working, READINGS, FIXED));
    };
    for more in [0, 1, 9].into_iter().take(if plate.widest() > 8 { 1 } else { 3 }) {
        let block = samples(random, plate.n);
        ask(comparison, &block, (metrics + more, decisions + more));
        ask(comparison, &block, (metrics - 1, decisions + more));
        ask(comparison, &block, (metrics + more, decisions - 1));
        ask(comparison, &block, (0, more));
        ask(comparison, &block, (metrics + more, 0));
    }
}

/// All positions: samples at and beyond their bounds, in number and in size, with good rooms and with none.
fn bad_samples(comparison: &mut Comparison, random: &mut Random, plate: &Plate) {
    let (flat, working) = (plate.flat(), header::rooms(plate));
    for value in [2047, -2047, 2048, -2048, i16::MAX, i16::MIN] {
        let mut block = samples(random, plate.n);
        block[random.below(plate.n)] = value;
        for working in [working, (0, 0), (working.0, 0)] {
            comparison.agree(asked::firmness_all(&flat, &block, working, READINGS, FIXED));
        }
        block.push(value);
        comparison.agree(asked::firmness_all(&flat, &block, (0, 0), READINGS, FIXED));
    }
    for count in [0, plate.n - 1, plate.n + 1, 64, 65] {
        for value in [0, 2048] {
            comparison.agree(asked::firmness_all(&flat, &vec![value; count], working, READINGS, FIXED));
        }
    }
}

/// Every run of fixed use at lengths about its own, with calls that are done and calls that are refused.
fn shapes(comparison: &mut Comparison, plate: &Plate) {
    let (flat, block, working) = (plate.flat(), vec![1; plate.n], header::rooms(plate));
    for code in 0..4 * 3 * 3 {
        let length = [PLATE_WORDS, 0, PLATE_WORDS - 1, PLATE_WORDS + 5][code % 4];
        let rooms = Rooms { plate: length, single: code / 4 % 3, place: code / 12, ..FIXED };
        comparison.agree(asked::widest(&flat, rooms));
        comparison.agree(asked::weights(&flat, COUNTS, working_needed(plate), rooms));
        comparison.agree(asked::weights(&flat, 0, 0, rooms));
        for readings in [(64, 64), (63, 64), (64, 63), (0, 64), (64, 0), (70, 65)] {
            comparison.agree(asked::firmness_all(&flat, &block, working, readings, rooms));
            comparison.agree(asked::firmness_all(&flat, &[3000], (0, 0), readings, rooms));
        }
    }
}

pub fn run(comparison: &mut Comparison, random: &mut Random) {
    comparison.begin("widest entries, weights and readings at their bounds");
    whole_spaces(comparison);
    for plate in plates() {
        comparison.agree(asked::widest(&plate.flat(), FIXED));
        working_rooms(comparison, random, &plate);
        bad_samples(comparison, random, &plate);
        if effort(&plate) < 14 {
            weight_rooms(comparison, &plate);
        }
        if plate.widest() < 3 {
            shapes(comparison, &plate);
        }
    }
}
