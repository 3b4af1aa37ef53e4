//! The model of alist texts, weights, levels and judging held to other ways and to worked examples.

use crate::alist;
use crate::coding::encode;
use crate::firmness::{readings_from_both_ends, readings_one_by_one};
use crate::floats::{meaning, Float, Size, INFINITY, NEGATIVE};
use crate::judge::{least_sizes, verdict, Leads};
use crate::level::{level, setting};
use crate::linear::even_with_all;
use crate::plate::{prepare_masked, Kind, Plate};
use crate::random::{matrix, samples, Random};
use crate::supplied::{changed, larger, named_anew, own};
use crate::verbs;
use crate::weights::{by_dual, by_gray_order, effort, of_code};
use crate::words::ones_before;
use std::fs;
use std::path::Path;

/// A random plate, a small one in one of two cases.
fn plate(random: &mut Random) -> Plate {
    loop {
        let found = matrix(random);
        let kind = if found.kind == 0 { Kind::G } else { Kind::H };
        let n = if random.one_in(2) { found.n.min(1 + random.below(12) as u64) } else { found.n };
        let rows: Vec<u64> = found.rows.iter().map(|row| row & ones_before(n as usize)).collect();
        if let Ok(plate) = prepare_masked(n, kind, &rows, found.mask & ones_before(n as usize)) {
            return plate;
        }
    }
}

/// Weights by the words of the code and by those of its dual; all together they are 2^k.
fn weights_two_ways(random: &mut Random) -> usize {
    let mut count = 0;
    while count < 200 {
        let plate = plate(random);
        let (n, k) = (plate.n, plate.k());
        if effort(&plate) > 14 {
            continue;
        }
        let found = of_code(&plate.rows, n);
        assert_eq!(found.iter().sum::<i128>(), 1 << k);
        assert_eq!(found[0], 1);
        if n - k <= 16 && k <= 16 {
            assert_eq!(by_gray_order(&plate.rows, n), by_dual(&even_with_all(&plate.rows, n), n));
            let zero = Plate { mask: 0, ..plate };
            let words = (0..1u64 << k).map(|u| encode(&zero, u).unwrap().count_ones() as usize);
            let mut one_by_one = vec![0; n + 1];
            words.for_each(|weight| one_by_one[weight] += 1);
            assert_eq!(found, one_by_one);
        }
        count += 1;
    }
    count
}

/// Each NAME.sheet of a folder has the weights in NAME.printed, but where its program has no room for them.
fn weights_printed(folder: &Path) -> usize {
    let Ok(entries) = fs::read_dir(folder) else { return 0 };
    let mut count = 0;
    for sheet in entries.map(|entry| entry.unwrap().path()) {
        let Ok(due) = fs::read_to_string(sheet.with_extension("printed")) else { continue };
        if sheet.extension().is_some_and(|end| end == "sheet") && due != "refused\t8\t0\n" {
            let found = verbs::answer("weights", &fs::read(&sheet).unwrap()).unwrap().0;
            assert_eq!(found, due, "{}", sheet.display());
            count += 1;
        }
    }
    count
}

/// A finite size as a whole number of units of 2^-149, in digits of 32 bits from the least on.
fn units(size: Size) -> [u32; 12] {
    let Size::Finite { digits, exponent } = size else { panic!("a finite size") };
    let mut units = [0u32; 12];
    let shift = (exponent + 149) as usize;
    for i in (0..64).filter(|i| digits >> i & 1 == 1) {
        units[(shift + i) / 32] |= 1 << ((shift + i) % 32);
    }
    units
}

fn times(units: [u32; 12], factor: u64) -> [u32; 12] {
    let mut carry = 0;
    units.map(|digit| {
        let sum = u64::from(digit) * factor + carry;
        carry = sum >> 32;
        sum as u32
    })
}

/// a - b, where that is not below zero; from the most on, for comparing.
fn apart(a: [u32; 12], b: [u32; 12]) -> Option<[u32; 12]> {
    let mut borrow = 0i64;
    let mut left = [0; 12];
    for i in 0..12 {
        let difference = i64::from(a[i]) - i64::from(b[i]) - borrow;
        borrow = i64::from(difference < 0);
        left[11 - i] = difference as u32;
    }
    (borrow == 0).then_some(left)
}

/// The f32 nearest to a factor times a step, by search among all f32: the last that is not above it, or the next; of two equally near
/// the one whose bits are even. What would follow the largest finite one counts as infinity's own place.
fn nearest(step: u32, factor: u64) -> u32 {
    let size = |bits: u32| match meaning(bits) {
        Float::Is { size: Size::Infinite, .. } => Size::Finite { digits: 1 << 23, exponent: 105 },
        Float::Is { size, .. } => size,
        Float::NotANumber => panic!("a number"),
    };
    let product = times(units(size(step)), factor);
    let (mut low, mut high) = (0, INFINITY);
    while low < high {
        let middle = low + (high - low).div_ceil(2);
        if apart(product, units(size(middle))).is_some() {
            low = middle;
        } else {
            high = middle - 1;
        }
    }
    if low == INFINITY {
        return low;
    }
    let (below, above) =
        (apart(product, units(size(low))).unwrap(), apart(units(size(low + 1)), product).unwrap());
    if below < above || below == above && low % 2 == 0 {
        low
    } else {
        low + 1
    }
}

/// Products by rounding, by search among all f32, and as the processor has them; what is at most what, as it has it.
fn products_three_ways(random: &mut Random) -> usize {
    let fractions = [0, 1, 0x2a_aaab, 0x40_0000, 0x55_5555, 0x7f_ffff];
    let mut count = 0;
    for exponent in 0..255u32 {
        for fraction in fractions.into_iter().chain([random.next() as u32 & 0x7f_ffff]) {
            let step = exponent << 23 | fraction;
            for factor in [0, 1, 2, 3, 5, 7, 11, 64, 85, 101, 126, 127] {
                let Float::Is { size, .. } = meaning(step) else { panic!("a number") };
                let product = size.times(factor);
                let bits = (f32::from_bits(step) * factor as f32).to_bits();
                assert_eq!(nearest(step, factor), bits);
                assert_eq!(meaning(bits), Float::Is { negative: false, size: product });
                let any = random.next() as u32 >> 1;
                let other = random.pick(&[bits, bits.saturating_sub(1), any]);
                if let Float::Is { size: other_size, .. } = meaning(other) {
                    let at_most = f32::from_bits(bits) <= f32::from_bits(other);
                    assert_eq!(product.at_most(other_size), at_most);
                }
                count += 1;
            }
        }
    }
    count
}

/// Levels as the processor's own arithmetic has them; that a greater value never has a lower level, and that negating negates.
fn levels_by_processor(random: &mut Random) -> usize {
    let mut count = 0;
    while count < 20_000 {
        let (step, top) = (random.next() as u32 >> 1, 1 + random.below(127) as u64);
        let Ok(setting) = setting(step, top) else { continue };
        let size = f32::from_bits(step);
        assert!(size > 0.0 && (size * top as f32).is_finite());
        let near = (size * random.below(128) as f32).to_bits();
        let mut values =
            [near, near + 1, near.saturating_sub(1), random.next() as u32 >> 1].map(f32::from_bits);
        values.iter_mut().filter(|value| value.is_nan()).for_each(|value| *value = 0.0);
        values.sort_by(f32::total_cmp);
        let found = values.map(|value| level(setting, value.to_bits()).unwrap());
        for (value, found) in values.into_iter().zip(found) {
            let due = (0..=top).filter(|&j| j as f32 * size <= value).max().unwrap() as i16;
            assert_eq!((found, level(setting, value.to_bits() ^ NEGATIVE)), (due, Some(-due)));
        }
        assert!(found.is_sorted());
        count += 1;
    }
    count
}

/// A text that is written reads back as its matrix.
fn texts_there_and_back(random: &mut Random) -> usize {
    for _ in 0..500 {
        let n = 1 + random.below(64);
        let rows: Vec<u64> = (0..1 + random.below(64)).map(|_| random.word(n) & random.next()).collect();
        assert_eq!(alist::read(alist::text(n, &rows).as_bytes()), Ok((n, rows)));
    }
    500
}

/// Verdicts and least sizes by sets of words, and by numbers of words and by dimensions.
fn judged_two_ways(random: &mut Random) -> usize {
    let mut count = 0;
    while count < 2000 {
        let plate = plate(random);
        if plate.k() > 9 || plate.widest() > 6 {
            continue;
        }
        let mut listing = own(&plate);
        (0..random.below(3)).for_each(|_| larger(random, &mut listing, plate.n));
        (0..random.below(3)).for_each(|_| changed(random, &mut listing, plate.n));
        named_anew(random, &mut listing, plate.n);
        let leads: Leads = listing
            .iter()
            .filter(|b| b.0 < plate.n)
            .map(|&(t, from, digit, to)| ((t, from, digit), to))
            .collect();
        assert_eq!(verdict(&plate, &leads, 1 << 12), verdict(&plate, &leads, 0));
        assert_eq!(least_sizes(&plate, 1 << 12), least_sizes(&plate, 0));
        count += 1;
    }
    count
}

/// Readings of all positions one by one, and from both ends.
fn readings_two_ways(random: &mut Random) -> usize {
    for _ in 0..300 {
        let plate = plate(random);
        if plate.widest() < 8 {
            let block = samples(random, plate.n);
            assert_eq!(readings_one_by_one(&plate, &block), readings_from_both_ends(&plate, &block));
        }
    }
    300
}

pub fn run() {
    let mut random = Random::new(2);
    println!("weights by a code and by its dual: {} agree", weights_two_ways(&mut random));
    println!("weights as printed: {} agree", weights_printed(Path::new("tests/weights")));
    println!("products by three ways: {} agree", products_three_ways(&mut random));
    println!("settings with levels as the processor has them: {} agree", levels_by_processor(&mut random));
    println!("alist texts there and back: {} agree", texts_there_and_back(&mut random));
    println!("listings judged by two ways: {} agree", judged_two_ways(&mut random));
    println!("readings of all positions by two ways: {} agree", readings_two_ways(&mut random));
}
