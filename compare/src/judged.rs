//! Listings of branches to be judged: a plate's own trellis with its states named anew, larger ones that spell the same, wrong ones, ones
//! that are refused, and every listing of two states where n is up to 2.

use crate::asked::{Rooms, FIXED};
use crate::comparison::Comparison;
use crate::decoding::counts;
use crate::judge::{asked, Branch, MOST_LINES, MOST_STATES, SURPLUS};
use crate::plate::{prepare_masked, Kind, Plate, PLATE_WORDS};
use crate::random::{matrix, Random};
use crate::small::{all_lists, all_matrices};
use crate::supplied::{changed, larger, named_anew, own, spoiled_text, text, tree, useless};
use crate::words::ones_before;
use crate::worked::Answer;
use std::collections::HashSet;

const WORKED: &str = include_str!("../../crates/worked_examples/stdin");
const WORKED_SAID: &str = include_str!("../../crates/worked_examples/stdout");

/// Lines that are just of their form, or just not.
const AWKWARD: [&str; 33] = [
    "\n",
    "\t\n",
    "branch\n",
    "branch",
    "branch\t0\t0\t0\t0",
    "branch\t0\t0\t0\t0\n",
    "branch\t0\t0\t0\t0\r\n",
    "branch\t0\t0\t0\t0\t\n",
    "branch\t0\t0\t0\t0\t0\n",
    "branch\t0\t0\t0\n",
    "branch\t0\t0\t0\t\n",
    "branch 0 0 0 0\n",
    "Branch\t0\t0\t0\t0\n",
    "branc\t0\t0\t0\t0\n",
    "branchs\t0\t0\t0\t0\n",
    " branch\t0\t0\t0\t0\n",
    "branch\t2\t1023\t1\t1023\n",
    "branch\t2\t1024\t1\t1023\n",
    "branch\t2\t1023\t1\t1024\n",
    "branch\t2\t1023\t2\t1023\n",
    "branch\t3\t1023\t1\t1023\n",
    "branch\t63\t1023\t1\t1023\n",
    "branch\t9999\t0\t1\t0\n",
    "branch\t10000\t0\t1\t0\n",
    "branch\t0\t00\t1\t0\n",
    "branch\t0\t01\t1\t0\n",
    "branch\t0\t-1\t1\t0\n",
    "branch\t0\t-0\t1\t0\n",
    "branch\t0\t+1\t1\t0\n",
    "branch\t0\t0\t01\t0\n",
    "branch\t0\t0\t1\t0x\n",
    "row\t0\t0\t1\t0\n",
    "end\n",
];

fn judge(comparison: &mut Comparison, flat: &[u64], text: &[u8], room: usize) -> u64 {
    comparison.agree(asked(flat, text, room, SURPLUS, FIXED)).0
}

/// The room that a listing needs.
fn needed(text: &[u8]) -> usize {
    let unended = text.last().is_some_and(|&last| last != b'\n');
    4 * (text.iter().filter(|&&byte| byte == b'\n').count() + usize::from(unended))
}

/// The examples that are worked for this request, against the plate of three positions and the parity check 111; gives back how many.
pub fn worked(answer: Answer) -> usize {
    let plate = prepare_masked(3, Kind::H, &[7], 0).unwrap();
    let examples =
        WORKED.split('#').skip(1).map(|example| example.split_once('\n').expect("a line of words"));
    assert_eq!(examples.clone().count(), WORKED_SAID.lines().count());
    for ((words, listing), said) in examples.zip(WORKED_SAID.lines()) {
        let room = if words.starts_with('7') { 7 } else { 64 };
        let mut flat = plate.flat();
        flat[PLATE_WORDS - 1] = if words.starts_with('5') { 8 } else { 0 };
        let (reply, mut left) = answer(asked(&flat, listing.as_bytes(), room, SURPLUS, FIXED));
        let mut cell = |run: usize, at: usize| left.runs[run].words()[at];
        let told = match (reply, cell(3, 0)) {
            (0, 0) => format!("right\t{}\t{}", cell(4, 2), cell(5, 2)),
            (0, 1) => format!("spelled wrongly\t{}", cell(3, 1)),
            (0, _) => format!("not spelled\t{}", cell(3, 1)),
            (number, _) => format!("refused\t{number}\t{}", cell(6, 0)),
        };
        assert_eq!(format!("{words}\t{told}"), said);
    }
    WORKED_SAID.lines().count()
}

/// Every listing of two states against every plate of one or two positions.
fn small_listings(comparison: &mut Comparison) {
    let mut seen = HashSet::new();
    for (n, kind, rows) in all_matrices(2, 2) {
        for mask in 0..1 << n {
            let kind = if kind == 0 { Kind::G } else { Kind::H };
            let flat = prepare_masked(n, kind, &rows, mask).unwrap().flat();
            if !seen.insert(flat.clone()) {
                continue;
            }
            for leads in all_lists(3, 4 * n as usize) {
                let branch = |(i, &lead): (usize, &u64)| {
                    (lead > 0).then(|| (i / 4, i / 2 % 2, i as u64 % 2, lead as usize - 1))
                };
                let listing: Vec<Branch> = leads.iter().enumerate().filter_map(branch).collect();
                judge(comparison, &flat, text(&listing).as_bytes(), 4 * listing.len());
            }
        }
    }
}

/// Each awkward line alone, after a good line, and between two.
fn awkward(comparison: &mut Comparison) {
    let flat = prepare_masked(3, Kind::H, &[7], 5).unwrap().flat();
    for line in AWKWARD {
        let good = "branch\t0\t0\t0\t0\n";
        for listing in [line.to_string(), format!("{good}{line}"), format!("{good}{line}{good}")] {
            for room in [0, 3, 4, 7, 8, 12, 20] {
                judge(comparison, &flat, listing.as_bytes(), room);
            }
        }
    }
}

/// Listings about the greatest number of lines: good ones, bad ones, ones that repeat; with room and without.
fn long_listings(comparison: &mut Comparison) {
    let sound = prepare_masked(12, Kind::G, &[1, 2, 4, 8], 0).unwrap().flat();
    let mut damaged = sound.clone();
    damaged[5] ^= 1;
    for count in [MOST_LINES - 1, MOST_LINES, MOST_LINES + 1, 2 * MOST_LINES] {
        let useless: String =
            (0..count).map(|i| format!("branch\t{}\t{}\t{}\t5\n", i / 400, 1 + i % 400 / 2, i % 2)).collect();
        let repeated = "branch\t0\t3\t1\t5\n".repeat(count);
        let unended = useless[..useless.len() - 1].to_string();
        for listing in [useless, unended, repeated, "\n".repeat(count)] {
            for room in [4 * count - 1, 4 * count, 0] {
                judge(comparison, &sound, listing.as_bytes(), room);
            }
            judge(comparison, &damaged, listing.as_bytes(), 0);
        }
    }
}

/// Runs of fixed use at lengths about their own.
fn shapes(comparison: &mut Comparison) {
    let flat = prepare_masked(3, Kind::H, &[7], 1).unwrap().flat();
    for code in 0..4 * 4 * 3 * 3 * 3 {
        let plate = [PLATE_WORDS, PLATE_WORDS - 1, 0, PLATE_WORDS + 1][code % 4];
        let rooms = Rooms { plate, counts: code / 4 % 4, place: code / 16 % 3, ..FIXED };
        let about = |length: usize, at: usize| [length, length - 1, length + 1][at];
        let surplus = (about(SURPLUS.0, code / 48 % 3), about(SURPLUS.1, code / 144));
        for listing in [&b""[..], b"branch\t0\t0\t0\t0\n", b"x"] {
            comparison.agree(asked(&flat, listing, 4, surplus, rooms));
        }
    }
}

/// The listings on one plate: right ones, with a surplus and without, and with one or two changes.
fn of_plate(comparison: &mut Comparison, random: &mut Random, plate: &Plate) {
    let (flat, n) = (plate.flat(), plate.n);
    let few = plate.k() < 6 && n << plate.k() < MOST_LINES;
    let mut listing = if few && random.one_in(3) { tree(plate) } else { own(plate) };
    if random.one_in(4) {
        (0..1 + random.below(4)).for_each(|_| larger(random, &mut listing, n));
    }
    if random.one_in(4) {
        useless(random, &mut listing, n);
    }
    named_anew(random, &mut listing, n);
    listing.truncate(MOST_LINES);
    let lines = listing.len();
    judge(comparison, &flat, text(&listing).as_bytes(), 4 * lines + random.pick(&[0, 0, 1, 9]));
    for _ in 0..4 {
        let mut other = listing.clone();
        (0..1 + random.below(2)).for_each(|_| changed(random, &mut other, n));
        if random.one_in(3) {
            named_anew(random, &mut other, n);
        }
        let (good, bad) = (text(&other), spoiled_text(random, &text(&other)));
        for listing in [good.as_bytes(), &bad] {
            let room = needed(listing);
            let room = random.pick(&[room, room, room, room + 1, room.saturating_sub(1), 0]);
            judge(comparison, &flat, listing, room);
        }
    }
    let mut damaged = flat;
    damaged[random.below(PLATE_WORDS)] ^= 1 << random.below(64);
    judge(comparison, &damaged, text(&listing).as_bytes(), random.pick(&[0, 4 * lines]));
}

pub fn run(comparison: &mut Comparison, random: &mut Random, count: usize) {
    comparison.begin("listings of branches");
    worked(&mut |call| comparison.agree(call));
    awkward(comparison);
    shapes(comparison);
    long_listings(comparison);
    if count > 0 {
        small_listings(comparison);
    }
    more(comparison, random, count.max(10), 1000);
}

/// Listings on so many random plates whose trellis has at most so many branches.
pub fn more(comparison: &mut Comparison, random: &mut Random, count: usize, most: u64) {
    comparison.begin("listings of branches");
    let mut done = 0;
    while done < count {
        let found = matrix(random);
        let kind = if found.kind == 0 { Kind::G } else { Kind::H };
        let n = if random.one_in(2) { found.n.min(12) } else { found.n };
        let within = |word: u64| word & ones_before(n as usize);
        let rows: Vec<u64> = found.rows.iter().map(|&row| within(row)).collect();
        let Ok(plate) = prepare_masked(n, kind, &rows, within(found.mask)) else { continue };
        let wide = plate.profile.iter().any(|&entry| 1 << entry > MOST_STATES);
        let bound = random.pick(&[40, 100, 200, 200, most]);
        if wide || counts(&plate).0 > bound {
            continue;
        }
        of_plate(comparison, random, &plate);
        done += 1;
    }
}
