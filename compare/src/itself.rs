//! The model held to the definitions, the paper's worked examples and outside sheets.

use crate::alone::{by_endings, by_gray_order};
use crate::asking::{stop_by_syndromes, stop_of_all};
use crate::brute;
use crate::coding::{encode, read_back};
use crate::decoding::{by_forward_pass, counts, decode, of_all_codewords};
use crate::firmness::{best_by_pass, best_of_all};
use crate::held;
use crate::judged;
use crate::model::Model;
use crate::plate::{prepare_masked, Kind, Plate};
use crate::random::{matrix, samples, Random};
use crate::sheet::listing;
use crate::sheets::{sheet, turned};
use crate::small::{all_matrices, all_samples};
use crate::trellis::branch;
use crate::words::{bit, earlier, ones_before};
use crate::worked;
use std::collections::BTreeSet;
use std::path::Path;

/// Rows and profile by the code; words and both ways of coding.
fn plate_by_definition(plate: &Plate, code: &BTreeSet<u64>, words: &BTreeSet<u64>) {
    let n = plate.n;
    assert_eq!(plate.rows, brute::plate_rows(code, n));
    assert_eq!(plate.profile, brute::profile(&plate.rows, n));
    assert_eq!(plate.profile, brute::profile_by_counting(code, n));
    own_plate(plate);
    for word in 0..2 << n {
        let information = (0..1 << plate.k()).find(|&u| encode(plate, u) == Ok(word));
        assert_eq!(information.is_some(), words.contains(&word));
        assert_eq!(plate.is_word(word), words.contains(&word));
        assert_eq!(read_back(plate, word).ok(), information);
    }
}

/// The run of a plate is that plate's, and with a mask beyond n it is none.
fn own_plate(plate: &Plate) {
    let mut flat = plate.flat();
    let own = Plate::from_flat(&flat).unwrap();
    assert_eq!((&own.rows, own.mask), (&plate.rows, plate.mask));
    if plate.n < 64 {
        *flat.last_mut().unwrap() |= 1 << plate.n;
        assert!(Plate::from_flat(&flat).is_none());
    }
}

/// Every branch, and the counts as numbers of branches and of branches entering a state.
fn trellis_by_definition(plate: &Plate, words: &BTreeSet<u64>) {
    let (mut additions, mut comparisons) = (0, 0);
    for t in 0..plate.n {
        let section = brute::section(words, &plate.rows, plate.mask, t);
        let states = 1u64 << plate.profile[t];
        for state in 0..states {
            for digit in 0..2 {
                let there = section.iter().find(|(from, bit, _)| (*from, *bit) == (state, digit));
                assert_eq!(branch(plate, t as u64, state, digit), Ok(there.map(|(_, _, to)| *to)));
            }
        }
        assert!(branch(plate, t as u64, states, 0).is_err());
        let targets: BTreeSet<u64> = section.iter().map(|(_, _, to)| *to).collect();
        assert_eq!(targets.len(), 1 << plate.profile[t + 1]);
        additions += section.len() as u64;
        comparisons += (section.len() - targets.len()) as u64;
    }
    assert_eq!(counts(plate), (additions, comparisons));
}

fn one_small(n: u64, kind: Kind, rows: &[u64], mask: u64, blocks: &[Vec<i16>]) {
    let code = brute::code(n as usize, kind, rows);
    let words = brute::masked(&code, mask);
    let plate = prepare_masked(n, kind, rows, mask).expect("no small matrix is refused");
    plate_by_definition(&plate, &code, &words);
    trellis_by_definition(&plate, &words);
    for word in 0..2u64 << n {
        let stop = brute::stop(&words, plate.n, word);
        assert_eq!(stop_of_all(&plate, word), stop);
        assert_eq!(stop_by_syndromes(&plate, word), stop);
        assert_eq!(words.contains(&word), stop == plate.n && word < 1 << n);
    }
    for block in blocks {
        let best = brute::best(&words, block);
        assert_eq!(of_all_codewords(&plate, block), best);
        assert_eq!(by_forward_pass(&plate, block), best);
        assert_eq!(by_gray_order(&plate, block), best.0);
        assert_eq!(by_endings(&plate, block), best.0);
        for (position, digit) in (0..plate.n).flat_map(|position| [(position, 0), (position, 1)]) {
            let best = brute::best_with(&words, block, position, digit);
            assert_eq!(best_of_all(&plate, block, position, digit), best);
            assert_eq!(best_by_pass(&plate, block, position, digit), best);
        }
    }
}

/// Small matrices against the definitions.
fn small_matrices(random: &mut Random) -> usize {
    let mut count = 0;
    for (n, kind, rows) in all_matrices(3, 3).chain(all_matrices(4, 2)) {
        let kind = if kind == 0 { Kind::G } else { Kind::H };
        let masks = if n < 4 { (0..1 << n).collect() } else { vec![0, random.word(4)] };
        for mask in masks {
            one_small(n, kind, &rows, mask, &all_samples(n as usize).collect::<Vec<_>>());
            count += 1;
        }
    }
    for _ in 0..400 {
        let n = 5 + random.below(5);
        let rows: Vec<u64> = (0..random.below(8)).map(|_| random.word(n) & random.next()).collect();
        let blocks: Vec<Vec<i16>> = (0..20).map(|_| samples(random, n)).collect();
        one_small(n as u64, random.pick(&[Kind::G, Kind::H]), &rows, random.word(n), &blocks);
        count += 1;
    }
    count
}

/// The plain answer to the samples with their signs turned where the mask has ones is, with the mask added, a word of the
/// greatest metric, and no earlier one than the answer. Masks that differ by a codeword give the same words and answers.
fn sign_turned(plate: &Plate, block: &[i16]) {
    let found = decode(plate, block);
    let plain = Plate { mask: 0, ..plate.clone() };
    let turned: Vec<i16> =
        block.iter().enumerate().map(|(i, &y)| if bit(plate.mask, i) == 1 { -y } else { y }).collect();
    let other = decode(&plain, &turned);
    assert_eq!(found.metric, other.metric);
    assert!(plate.is_word(other.word ^ plate.mask) && !earlier(other.word ^ plate.mask, found.word));
    let same = Plate { mask: plate.mask ^ encode(&plain, ones_before(plate.k())).unwrap(), ..plate.clone() };
    assert_eq!(decode(&same, block), found);
}

/// The two ways of decoding on larger codes, and that each plate is its own.
fn larger_matrices(random: &mut Random) -> usize {
    let mut count = 0;
    for _ in 0..600 {
        let found = matrix(random);
        let kind = if found.kind == 0 { Kind::G } else { Kind::H };
        let Ok(plate) = prepare_masked(found.n, kind, &found.rows, found.mask) else {
            continue;
        };
        let block = samples(random, plate.n);
        assert!(plate.rows.iter().all(|&row| plate.is_word(row ^ plate.mask)));
        assert_eq!(plate.profile, brute::profile(&plate.rows, plate.n));
        own_plate(&plate);
        if plate.k() <= 12 {
            assert_eq!(of_all_codewords(&plate, &block), by_forward_pass(&plate, &block));
            let word = encode(&plate, random.word(plate.k())).unwrap() ^ 1 << random.below(plate.n);
            assert_eq!(stop_of_all(&plate, word), stop_by_syndromes(&plate, word));
        }
        assert_eq!(by_endings(&plate, &block), by_forward_pass(&plate, &block).0);
        assert!(plate.is_word(decode(&plate, &block).word));
        sign_turned(&plate, &block);
        count += 1;
    }
    count
}

/// A sheet and the sheet turned: the same listing, but for the words, which are printed from the other end.
fn turned_sheets(random: &mut Random) -> usize {
    let turned_word = |line: &str| {
        let mut fields: Vec<String> = line.split('\t').map(String::from).collect();
        if fields[0] == "word" {
            fields[1] = fields[1].chars().rev().collect();
        }
        fields.join("\t") + "\n"
    };
    for _ in 0..600 {
        let text = String::from_utf8(sheet(random)).unwrap();
        let expected: String = listing(text.as_bytes()).0.lines().map(turned_word).collect();
        assert_eq!(listing(turned(&text).as_bytes()).0, expected);
    }
    600
}

pub fn run(sheets: Option<&Path>) {
    let mut random = Random::new(1);
    println!("small matrices by the definitions: {} agree", small_matrices(&mut random));
    println!("larger matrices by two ways: {} agree", larger_matrices(&mut random));
    println!("sheets and the sheets turned: {} agree", turned_sheets(&mut random));
    held::run();
    let mut model = Model::new();
    let mut answer = |mut call| (model.answer(&mut call), call);
    println!("calls of the paper's worked examples: {} agree", worked::examples(&mut answer));
    println!("examples worked for judging: {} agree", judged::worked(&mut answer));
    if let Some(folder) = sheets {
        println!("outside sheets: {} agree", worked::outside_sheets(folder, &mut answer));
    }
}
