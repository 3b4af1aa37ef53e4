//! The header's macros that came with weights, levels, alist texts and judging, held as the others are.

use crate::alist::{asked_read, asked_write, TABLE};
use crate::asked::{self, FIXED};
use crate::comparison::Comparison;
use crate::header::{has, number, value};
use crate::judge::{self, MOST_LINES, SURPLUS};
use crate::level::asked_one;
use crate::macros::replies;
use crate::plate::{prepare, Kind, Plate};
use crate::rooms::plates;
use crate::weights::{effort, working_needed, COUNTS};

/// The plate of three positions whose words have an even number of ones.
fn even() -> Plate {
    prepare(3, Kind::H, &[7]).unwrap()
}

/// The numbers of refusals.
fn numbers(comparison: &mut Comparison) {
    let (even, whole) = (even().flat(), prepare(64, Kind::H, &[]).unwrap().flat());
    replies(comparison, "WHOLE_SPACE", asked::weights(&whole, 0, 0, FIXED));
    replies(comparison, "ALIST_FAULT", asked_read(b"", TABLE, FIXED));
    replies(comparison, "LINE_ROOM", asked_write(1, &[1], 0, FIXED));
    replies(comparison, "SETTING", asked_one(0, 1, 0, 0, FIXED));
    replies(comparison, "NOT_A_NUMBER", asked_one(1, 1, u32::MAX, 0, FIXED));
    let listing = |text: &str| judge::asked(&even, text.as_bytes(), 0, SURPLUS, FIXED);
    replies(comparison, "BRANCH_FAULT", listing("\n"));
    replies(comparison, "BRANCH_TWICE", listing(&"branch\t0\t0\t0\t0\n".repeat(2)));
    replies(comparison, "TOO_MANY_LINES", listing(&"\n".repeat(MOST_LINES + 1)));
}

/// Rooms for weights: just enough, and one cell less is not.
fn weights(comparison: &mut Comparison) {
    assert_eq!(value("WEIGHT_COUNTS"), COUNTS);
    for plate in plates().filter(|plate| effort(plate) < 14) {
        let (counts, working) =
            (value("WEIGHT_COUNTS"), value(&format!("WEIGHT_WORKING {}", plate.widest())));
        assert_eq!(working, working_needed(&plate));
        let flat = plate.flat();
        replies(comparison, "DONE", asked::weights(&flat, counts, working, FIXED));
        replies(comparison, "METRIC_ROOM", asked::weights(&flat, counts - 1, working, FIXED));
        replies(comparison, "METRIC_ROOM", asked::weights(&flat, counts, working - 1, FIXED));
    }
    assert_eq!(value("WEIGHT_WORKING_MOST"), value("WEIGHT_WORKING 12"));
}

/// The longest alist text has its room.
fn alists(comparison: &mut Comparison) {
    replies(comparison, "DONE", asked_write(64, &[u64::MAX; 64], value("ALIST_MOST"), FIXED));
}

/// Room for judging: just enough for as many lines, and one cell less is not. The verdicts by their numbers.
fn judging(comparison: &mut Comparison) {
    let flat = even().flat();
    for lines in [0, 1, 2, 100, MOST_LINES] {
        let listing: String = (0..lines).map(|i| format!("branch\t0\t{}\t{}\t5\n", i / 2, i % 2)).collect();
        let room = value(&format!("JUDGING {lines}"));
        let call = |room: usize| judge::asked(&flat, listing.as_bytes(), room, SURPLUS, FIXED);
        replies(comparison, "DONE", call(room));
        if room > 0 {
            replies(comparison, "METRIC_ROOM", call(room - 1));
        }
    }
    assert_eq!(value("JUDGING_MOST"), value(&format!("JUDGING {MOST_LINES}")));
    let one = prepare(1, Kind::G, &[]).unwrap().flat();
    let verdicts = [("RIGHT", "branch\t0\t0\t0\t0\n"), ("NOT_SPELLED", "")];
    let wrongly = ("SPELLED_WRONGLY", "branch\t0\t0\t0\t0\nbranch\t0\t0\t1\t0\n");
    for (name, listing) in verdicts.into_iter().chain([wrongly]) {
        let mut left = replies(comparison, "DONE", judge::asked(&one, listing.as_bytes(), 8, SURPLUS, FIXED));
        assert_eq!(left.runs[3].words()[0], number(name), "{name}");
    }
}

pub fn run(comparison: &mut Comparison) {
    numbers(comparison);
    if has("WEIGHT_COUNTS") {
        weights(comparison);
    }
    if has("ALIST_MOST") {
        alists(comparison);
    }
    if has("JUDGING_MOST") {
        judging(comparison);
    }
}
