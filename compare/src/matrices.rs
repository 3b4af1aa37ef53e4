//! Random matrices up to n = 64, and each call on the plates that they give.

use crate::asked::{self, FIXED};
use crate::batch;
use crate::bounds::READINGS;
use crate::call::Call;
use crate::coding::encode;
use crate::comparison::Comparison;
use crate::header;
use crate::plate::{check_columns, profile, Kind, Plate};
use crate::random::{matrix, samples, spoiled, Matrix, Random};
use crate::weights::{effort, working_needed, COUNTS};
use crate::words::ones_before;

/// The largest profile entry of a matrix that is in order, refused or not.
fn width(matrix: &Matrix) -> usize {
    let kind = if matrix.kind == 0 { Kind::G } else { Kind::H };
    let columns = check_columns(matrix.n, kind, &matrix.rows).expect("a matrix in order");
    *profile(&columns).iter().max().unwrap()
}

/// Branches from random states, some of them not there.
fn branches(comparison: &mut Comparison, random: &mut Random, plate: &Plate, flat: &[u64]) {
    for _ in 0..24 {
        let depth = random.below(plate.n);
        let digits = plate.profile[depth] + usize::from(random.one_in(8));
        let state = random.word(digits);
        let depth =
            if random.one_in(16) { random.pick(&[plate.n as u64, 64, 65, u64::MAX]) } else { depth as u64 };
        let state = if random.one_in(16) { random.next() } else { state };
        let bit = if random.one_in(16) { random.pick(&[2, 3, 1 << 32, u64::MAX]) } else { random.next() % 2 };
        comparison.agree(asked::branch(flat, depth, state, bit, FIXED));
    }
}

/// Informations and words, in order and not.
fn codings(comparison: &mut Comparison, random: &mut Random, plate: &Plate, flat: &[u64]) {
    for _ in 0..6 {
        let information = random.word(plate.k());
        comparison.agree(asked::encode(flat, information, FIXED));
        comparison.agree(asked::encode(flat, random.word((plate.k() + 1).min(64)), FIXED));
        let word = encode(plate, information).unwrap();
        comparison.agree(asked::read_back(flat, word, FIXED));
        comparison.agree(asked::read_back(flat, word ^ 1 << random.below(64), FIXED));
        comparison.agree(asked::read_back(flat, random.next(), FIXED));
    }
}

/// A word to ask about: the answer, another word of the plate, one with another digit, one with ones beyond n, or any word.
fn named(random: &mut Random, plate: &Plate, answer: u64) -> u64 {
    let other = encode(plate, random.word(plate.k())).unwrap();
    let digit = 1 << random.below(plate.n);
    let beyond = random.next() & !ones_before(plate.n);
    let any = random.next();
    random.pick(&[answer, other, other, other ^ digit, answer ^ digit, other | beyond, any])
}

/// Blocks of many tempers; fewer on wide plates, which cost the model most.
fn blocks(comparison: &mut Comparison, random: &mut Random, plate: &Plate, flat: &[u64]) {
    let (metrics, decisions) = header::rooms(plate);
    let count = match plate.widest() {
        0..=6 => 6,
        7..=9 => 3,
        _ => 1,
    };
    for _ in 0..count {
        let block = samples(random, plate.n);
        let more = random.pick(&[0, 0, 1, 17]);
        comparison.agree(asked::decode(flat, &block, metrics + more, decisions + more, FIXED));
        comparison.agree(asked::metric(flat, &block, metrics + more, FIXED));
        let (_, mut left) =
            comparison.agree(asked::word(flat, &block, metrics + more, decisions + more, FIXED));
        let word = named(random, plate, left.runs[4].words()[0]);
        comparison.agree(asked::why_not(flat, &block, word, metrics + more, decisions + more, FIXED));
        let position = random.below(plate.n) as u64;
        comparison.agree(asked::firmness(flat, &block, position, metrics + more, decisions + more, FIXED));
        if plate.widest() < 8 || random.one_in(8) {
            let working = (metrics + more, decisions + more);
            comparison.agree(asked::firmness_all(flat, &block, working, READINGS, FIXED));
        }
    }
}

/// The widest entry; the weights, where the words of the code or of its dual are few.
fn sizes(comparison: &mut Comparison, random: &mut Random, plate: &Plate, flat: &[u64]) {
    comparison.agree(asked::widest(flat, FIXED));
    let few = match effort(plate) {
        0..=12 => plate.widest() < 8 || random.one_in(4),
        13..=18 => random.one_in(8),
        _ => false,
    };
    if few {
        let (counts, working) =
            (COUNTS + random.pick(&[0, 0, 3]), working_needed(plate) + random.pick(&[0, 0, 5]));
        comparison.agree(asked::weights(flat, counts, working, FIXED));
    }
}

/// The calls on one plate.
fn questions(comparison: &mut Comparison, random: &mut Random, flat: &[u64]) {
    let plate = Plate::from_flat(flat).expect("a plate just prepared");
    branches(comparison, random, &plate, flat);
    codings(comparison, random, &plate, flat);
    blocks(comparison, random, &plate, flat);
    batch::some(comparison, random, &plate, flat);
    sizes(comparison, random, &plate, flat);
    comparison.agree(asked::write_plate(flat, 256, FIXED));
    comparison.agree(asked::write_profile(flat, 256, FIXED));
    let values =
        (random.next(), random.next() as i32, random.next() >> random.below(64), random.next() % 10_000);
    comparison.agree(asked::write_word(flat, values, 256, FIXED));
}

fn prepare(matrix: &Matrix) -> Call {
    asked::prepare_masked(matrix.n, matrix.kind, &matrix.rows, matrix.mask, FIXED)
}

/// Matrices in order, and one in eight with the faults of refusals 1 to 3 and 23. Gives back how many had each width, 14 and wider as one.
pub fn run(comparison: &mut Comparison, random: &mut Random, count: usize) -> [usize; 15] {
    comparison.begin("random matrices");
    let mut widths = [0usize; 15];
    for _ in 0..count {
        let matrix = matrix(random);
        widths[width(&matrix).min(14)] += 1;
        let (reply, mut call) = comparison.agree(prepare(&matrix));
        if reply == 0 {
            questions(comparison, random, &call.runs[1].words().to_vec());
        }
        if random.one_in(8) {
            let bad = spoiled(random, matrix);
            comparison.agree(prepare(&bad));
        }
    }
    widths
}
