//! Short, exact and long rooms, extreme samples, and bad arguments in every order of refusals.

use crate::asked::{self, Rooms, FIXED};
use crate::batch;
use crate::call::Name;
use crate::comparison::Comparison;
use crate::header;
use crate::listing::{end_line, numbers_line, plate_line, profile_line, refused_line, word_line};
use crate::plate::{prepare_masked, Kind, Plate, Refusal, PLATE_WORDS};
use crate::random::{samples, Random};
use crate::words::ones_before;

/// One plate of each width 0 to 12.
pub fn plates() -> impl Iterator<Item = Plate> {
    let rows = |width: usize| (0..width).map(|i| 1 << i | 1 << (i + width)).collect::<Vec<u64>>();
    // those of odd width have a mask
    let mask = |width: usize| if width % 2 == 1 { 0x5_a5a5_a5a5 & ones_before(2 * width + 1) } else { 0 };
    let plate =
        move |width| prepare_masked(2 * width as u64 + 1, Kind::G, &rows(width), mask(width)).unwrap();
    (0..=12).map(plate)
}

/// Lengths about the one that is needed.
fn about(needed: usize) -> [usize; 5] {
    [0, needed - 1, needed, needed + 1, needed + 9]
}

fn working_rooms(comparison: &mut Comparison, random: &mut Random, plate: &Plate) {
    let (flat, needed) = (plate.flat(), header::rooms(plate));
    for metrics in about(needed.0) {
        comparison.agree(asked::metric(&flat, &samples(random, plate.n), metrics, FIXED));
        for decisions in about(needed.1) {
            let block = samples(random, plate.n);
            comparison.agree(asked::decode(&flat, &block, metrics, decisions, FIXED));
            comparison.agree(asked::word(&flat, &block, metrics, decisions, FIXED));
            let position = random.below(plate.n) as u64;
            comparison.agree(asked::firmness(&flat, &block, position, metrics, decisions, FIXED));
            comparison.agree(asked::why_not(&flat, &block, random.next(), metrics, decisions, FIXED));
        }
    }
}

/// Samples at and beyond their bounds, in number and in size, with good rooms and with none.
fn bad_samples(comparison: &mut Comparison, random: &mut Random, plate: &Plate) {
    let flat = plate.flat();
    let (metrics, decisions) = header::rooms(plate);
    for value in [2047, -2047, 2048, -2048, 2049, 4095, 4096, -4096, i16::MAX, i16::MIN] {
        let mut block = samples(random, plate.n);
        let place = random.below(plate.n);
        block[place] = value;
        if random.one_in(2) {
            block[place..].fill(value);
        }
        comparison.agree(asked::decode(&flat, &block, metrics, decisions, FIXED));
        comparison.agree(asked::decode(&flat, &block, 0, decisions, FIXED));
        comparison.agree(asked::decode(&flat, &block, metrics, 0, FIXED));
        for metrics in [metrics, 0] {
            comparison.agree(asked::metric(&flat, &block, metrics, FIXED));
            comparison.agree(asked::word(&flat, &block, metrics, 0, FIXED));
            comparison.agree(asked::word(&flat, &block, metrics, decisions, FIXED));
            comparison.agree(asked::why_not(&flat, &block, 0, metrics, 0, FIXED));
            comparison.agree(asked::why_not(&flat, &block, 0, metrics, decisions, FIXED));
        }
        comparison.agree(asked::firmness(&flat, &block, place as u64, metrics, decisions, FIXED));
        comparison.agree(asked::firmness(&flat, &block, plate.n as u64, 0, 0, FIXED));
        block.push(value);
        comparison.agree(asked::decode(&flat, &block, 0, 0, FIXED));
        comparison.agree(asked::metric(&flat, &block, 0, FIXED));
        comparison.agree(asked::word(&flat, &block, 0, 0, FIXED));
        comparison.agree(asked::why_not(&flat, &block, u64::MAX, 0, 0, FIXED));
        comparison.agree(asked::firmness(&flat, &block, u64::MAX, 0, 0, FIXED));
    }
}

/// Too few and too many samples, and blocks of one value only.
fn plain_samples(comparison: &mut Comparison, plate: &Plate) {
    let flat = plate.flat();
    for count in [0, plate.n - 1, plate.n, plate.n + 1, 65, 200] {
        for value in [2047, -2047, 0, 1, -1] {
            let (metrics, decisions) = header::rooms(plate);
            comparison.agree(asked::decode(&flat, &vec![value; count], metrics, decisions, FIXED));
            comparison.agree(asked::metric(&flat, &vec![value; count], metrics, FIXED));
            comparison.agree(asked::word(&flat, &vec![value; count], metrics, decisions, FIXED));
            let sum = plate.rows.iter().fold(plate.mask, |sum, row| sum ^ row);
            comparison.agree(asked::why_not(&flat, &vec![value; count], sum, metrics, decisions, FIXED));
        }
    }
}

/// Every position and some beyond, with good rooms and with none.
fn positions(comparison: &mut Comparison, random: &mut Random, plate: &Plate) {
    let (flat, n) = (plate.flat(), plate.n as u64);
    let (metrics, decisions) = header::rooms(plate);
    let block = samples(random, plate.n);
    for position in (0..=n + 1).chain([63, 64, 65, 1 << 32, 1 << 63, u64::MAX]) {
        comparison.agree(asked::firmness(&flat, &block, position, metrics, decisions, FIXED));
        comparison.agree(asked::firmness(&flat, &block, position, metrics - 1, decisions, FIXED));
        comparison.agree(asked::firmness(&flat, &block, position, metrics, decisions - 1, FIXED));
    }
    for value in [2047, -2047, 0] {
        let block = vec![value; plate.n];
        comparison.agree(asked::firmness(&flat, &block, n / 2, metrics, decisions, FIXED));
    }
}

/// Each argument of the calls at its bounds.
fn bad_arguments(comparison: &mut Comparison, plate: &Plate) {
    let (flat, n, k) = (plate.flat(), plate.n, plate.k());
    for depth in (0..=n as u64 + 1).chain([1 << 32, 1 << 63, u64::MAX]) {
        let states = plate.profile.get(depth as usize).map_or(1, |&s| 1 << s);
        for state in [0, states - 1, states, states + 1, 1 << 32, 1 << 63, u64::MAX] {
            for bit in [0, 1, 2, 3, 256, 1 << 32, u64::MAX] {
                comparison.agree(asked::branch(&flat, depth, state, bit, FIXED));
            }
        }
    }
    for position in 0..64 {
        comparison.agree(asked::encode(&flat, 1 << position, FIXED));
        comparison.agree(asked::read_back(&flat, 1 << position, FIXED));
        let word = plate.mask ^ plate.rows.first().unwrap_or(&0);
        comparison.agree(asked::read_back(&flat, word, FIXED));
        comparison.agree(asked::read_back(&flat, word ^ 1 << position, FIXED));
    }
    for ones in [ones_before(k), u64::MAX, !ones_before(k)] {
        comparison.agree(asked::encode(&flat, ones, FIXED));
        comparison.agree(asked::read_back(&flat, ones, FIXED));
    }
}

/// Lines into rooms of every length up to some bytes more than they need.
fn lines(comparison: &mut Comparison, plate: &Plate) {
    let flat = plate.flat();
    for room in 0..plate_line(plate).len() + 4 {
        comparison.agree(asked::write_plate(&flat, room, FIXED));
    }
    for room in 0..profile_line(plate).len() + 4 {
        comparison.agree(asked::write_profile(&flat, room, FIXED));
    }
    let most = u64::MAX;
    let many = [(0, 0, 0, 0), (most, i32::MIN, most, most), (!0 << 7, i32::MAX, 10, 9), (5, -10, 99, 100)];
    for (word, metric, additions, comparisons) in many {
        for room in 0..word_line(plate, word, metric, additions, comparisons).len() + 4 {
            comparison.agree(asked::write_word(&flat, (word, metric, additions, comparisons), room, FIXED));
        }
    }
}

/// Lines without a plate, over numbers of every length, and over every number that a refusal may have.
fn plain_lines(comparison: &mut Comparison) {
    for number in 0..40 {
        comparison.agree(asked::write_refused(Refusal { number, place: 3, field: 2 }, 256, FIXED));
    }
    let tens = (0..20).map(|i| 10u64.pow(i));
    for value in tens.flat_map(|ten| [ten - 1, ten, ten + 1]).chain([u64::MAX - 1, u64::MAX]) {
        for room in 0..end_line(value).len() + 4 {
            comparison.agree(asked::write_end(value, room, FIXED));
        }
        let numbers =
            [(value, 0, 0), (0, value, 0), (value, u64::MAX - value, value), (10, value, 0), (18, 1, value)];
        for (number, place, field) in numbers {
            let refusal = Refusal { number, place, field };
            for room in 0..refused_line(refusal).len() + 4 {
                comparison.agree(asked::write_refused(refusal, room, FIXED));
            }
        }
    }
}

/// Lines of numbers alone, over numbers of every length, in rooms of every length up to some bytes more than they need.
fn number_lines(comparison: &mut Comparison) {
    let tens = (0..20).map(|i| 10u64.pow(i));
    for value in tens.flat_map(|ten| [ten - 1, ten]).chain([u64::MAX]) {
        let other = u64::MAX - value;
        for (name, numbers) in [
            (Name::WriteTally, vec![value, other, value, 0, 1, other, 10, value, other]),
            (Name::WriteTally, vec![other, value, 0, value, other, 9, value, other, value]),
            (Name::WriteTally, vec![0, 1, 2, 3, 4, 5, 6, value, value]),
            (Name::WriteWeight, vec![value, other]),
            (Name::WriteLeast, vec![value]),
            (Name::WriteNoLeast, vec![]),
        ] {
            for room in 0..numbers_line(name, &numbers).len() + 4 {
                comparison.agree(asked::write_numbers(name, &numbers, room, FIXED));
            }
        }
    }
}

/// The mask at its bounds: 23 after 3 and before 4, wherever the one beyond n stands.
fn masks(comparison: &mut Comparison) {
    let pairs = (0..13).map(|i| 1 << i | 1 << (i + 13)).collect::<Vec<u64>>();
    let beyond = (pairs.iter().copied().chain([1 << 26])).collect::<Vec<u64>>();
    for n in [1, 2, 26, 63, 64u64] {
        for position in 0..64 {
            for rows in [&[][..], &[1], &pairs, &beyond, &[0; 65]] {
                comparison.agree(asked::prepare_masked(n, 0, rows, 1 << position, FIXED));
            }
            comparison.agree(asked::prepare_masked(n, 1, &[], 1 << position | 1, FIXED));
        }
        comparison.agree(asked::prepare_masked(n, 0, &[1], u64::MAX, FIXED));
    }
}

/// Every run of fixed use at lengths about its own; matrices of no kind.
fn shapes(comparison: &mut Comparison, plate: &Plate) {
    let (flat, block) = (plate.flat(), vec![1; plate.n]);
    let (metrics, decisions) = header::rooms(plate);
    for code in 0..5 * 3 * 4 * 3 {
        let length = [PLATE_WORDS, 0, PLATE_WORDS - 1, PLATE_WORDS + 1, 140][code % 5];
        let rooms = Rooms { plate: length, single: code / 5 % 3, counts: code / 15 % 4, place: code / 60 };
        comparison.agree(asked::branch(&flat, 0, 0, 0, rooms));
        comparison.agree(asked::plate_of_sheet(b"cover\t2\tG\tlast\nmask\t10\nrow\t01\nend\n", rooms));
        comparison.agree(asked::plate_of_sheet(b"cover\t2\tG\tlast\nrow\t1\nend\n", rooms));
        comparison.agree(asked::encode(&flat, 1, rooms));
        comparison.agree(asked::read_back(&flat, 0, rooms));
        comparison.agree(asked::decode(&flat, &block, metrics, decisions, rooms));
        comparison.agree(asked::decode(&flat, &[300], 0, 0, rooms));
        comparison.agree(asked::decode_blocks(&flat, &block, (1, 1), (metrics, decisions), rooms));
        comparison.agree(asked::decode_blocks(&flat, &[300], (0, 2), (0, 0), rooms));
        comparison.agree(asked::metric(&flat, &block, metrics, rooms));
        comparison.agree(asked::metric(&flat, &[300], 0, rooms));
        comparison.agree(asked::word(&flat, &block, metrics, decisions, rooms));
        comparison.agree(asked::word(&flat, &[300], 0, 0, rooms));
        comparison.agree(asked::firmness(&flat, &block, 0, metrics, decisions, rooms));
        comparison.agree(asked::firmness(&flat, &[300], 64, 0, 0, rooms));
        comparison.agree(asked::why_not(&flat, &block, 0, metrics, decisions, rooms));
        comparison.agree(asked::why_not(&flat, &[300], 0, 0, 0, rooms));
        comparison.agree(asked::write_plate(&flat, 256, rooms));
        comparison.agree(asked::write_profile(&flat, 256, rooms));
        comparison.agree(asked::write_word(&flat, (0, 0, 0, 0), 256, rooms));
        comparison.agree(asked::write_refused(Refusal { number: 1, place: 0, field: 0 }, 256, rooms));
        comparison.agree(asked::write_end(1, 256, rooms));
        comparison.agree(asked::write_numbers(Name::WriteTally, &[1; 9], 256, rooms));
        comparison.agree(asked::write_numbers(Name::WriteWeight, &[1, 2], 256, rooms));
        comparison.agree(asked::write_numbers(Name::WriteLeast, &[1], 256, rooms));
        comparison.agree(asked::write_numbers(Name::WriteNoLeast, &[], 256, rooms));
        for (n, kind, rows, mask) in [
            (8, 0, &[3, 5][..], 0),
            (8, 1, &[3, 5], 129),
            (8, 1, &[3, 5], 256),
            (8, 2, &[], 256),
            (0, u64::MAX, &[], 0),
            (0, 0, &[], 1),
            (8, 1, &[1, 256], 256),
        ] {
            comparison.agree(asked::prepare_masked(n, kind, rows, mask, rooms));
        }
    }
}

pub fn run(comparison: &mut Comparison, random: &mut Random) {
    comparison.begin("rooms, samples and arguments at their bounds");
    plain_lines(comparison);
    number_lines(comparison);
    masks(comparison);
    for plate in plates() {
        working_rooms(comparison, random, &plate);
        bad_samples(comparison, random, &plate);
        plain_samples(comparison, &plate);
        batch::bounds(comparison, random, &plate);
        positions(comparison, random, &plate);
        bad_arguments(comparison, &plate);
        lines(comparison, &plate);
        if plate.widest() < 3 {
            shapes(comparison, &plate);
        }
    }
}
