//! Every macro of the header held to the model and the library: rooms of its size are enough, and one cell less is not where it says
//! exactly; its numbers are what calls reply.

use crate::asked::{self, Rooms, FIXED};
use crate::call::Call;
use crate::comparison::Comparison;
use crate::further;
use crate::header::{listing_room, number, rooms, rooms_most, unasked, value};
use crate::plate::{prepare, Kind, Plate, Refusal, PLATE_WORDS};
use crate::rooms::plates;

/// Both sides reply the number that the header gives this name; gives back the call as it was left.
pub fn replies(comparison: &mut Comparison, name: &str, call: Call) -> Call {
    let shown = call.to_string();
    let (reply, left) = comparison.agree(call);
    assert_eq!(reply, number(name), "YENDRUFAL_{name} is due for {shown}");
    left
}

/// Rows with ones at i and i + width: a plate of that width.
fn pairs(width: usize) -> Vec<u64> {
    (0..width).map(|i| 1 << i | 1 << (i + width)).collect()
}

/// The rooms of one plate are just enough, those for every plate are enough.
fn working_rooms(comparison: &mut Comparison, plate: &Plate) {
    let (flat, block) = (plate.flat(), vec![-1; plate.n]);
    let (metrics, decisions) = rooms(plate);
    for (metrics, decisions) in [(metrics, decisions), rooms_most()] {
        replies(comparison, "DONE", asked::decode(&flat, &block, metrics, decisions, FIXED));
        replies(comparison, "DONE", asked::word(&flat, &block, metrics, decisions, FIXED));
        replies(comparison, "DONE", asked::firmness(&flat, &block, 0, metrics, decisions, FIXED));
        replies(comparison, "DONE", asked::why_not(&flat, &block, 0, metrics, decisions, FIXED));
        replies(comparison, "DONE", asked::metric(&flat, &block, metrics, FIXED));
    }
    replies(comparison, "METRIC_ROOM", asked::decode(&flat, &block, metrics - 1, decisions, FIXED));
    replies(comparison, "METRIC_ROOM", asked::metric(&flat, &block, metrics - 1, FIXED));
    replies(comparison, "DECISION_ROOM", asked::decode(&flat, &block, metrics, decisions - 1, FIXED));
}

/// A plate has as many words as the header says, and its parts where it says.
fn plate_words(comparison: &mut Comparison, plate: &Plate) {
    let (words, kind) = (value("PLATE_WORDS"), number("KIND_G"));
    let call = |plate_words| {
        let rooms = Rooms { plate: plate_words, ..FIXED };
        asked::prepare_masked(plate.n as u64, kind, &plate.rows, plate.mask, rooms)
    };
    replies(comparison, "SHAPE", call(words - 1));
    let flat = replies(comparison, "DONE", call(words)).runs[1].words().to_vec();
    assert_eq!(flat[value("PLATE_N")], plate.n as u64);
    assert_eq!(flat[value("PLATE_K")], plate.k() as u64);
    assert_eq!(flat[value("PLATE_ROWS")..][..plate.k()], plate.rows);
    let profile = flat[value("PLATE_PROFILE")..][..=plate.n].iter().map(|&entry| entry as usize);
    assert_eq!(profile.collect::<Vec<_>>(), plate.profile);
    assert_eq!(flat[value("PLATE_MASK")], plate.mask);
}

/// The longest line of each kind has its room.
fn lines(comparison: &mut Comparison, plate: &Plate) {
    let (flat, room, most) = (plate.flat(), value("LINE_MOST"), u64::MAX);
    replies(comparison, "DONE", asked::write_plate(&flat, room, FIXED));
    replies(comparison, "DONE", asked::write_profile(&flat, room, FIXED));
    replies(comparison, "DONE", asked::write_word(&flat, (most, i32::MIN, most, most), room, FIXED));
    replies(comparison, "DONE", asked::write_end(most, room, FIXED));
    for number in [most, 18] {
        let refusal = Refusal { number, place: most, field: most };
        replies(comparison, "DONE", asked::write_refused(refusal, room, FIXED));
    }
    replies(comparison, "LINE_ROOM", asked::write_end(0, 5, FIXED));
}

/// What a sheet lists in rooms of the header's sizes.
fn listed(comparison: &mut Comparison, sheet: &str) -> String {
    let ((metrics, decisions), room) = (rooms_most(), listing_room(sheet.as_bytes()));
    let call = asked::listing(sheet.as_bytes(), metrics, decisions, room, FIXED);
    let mut left = replies(comparison, "DONE", call);
    let size = left.runs[4].words()[0] as usize;
    String::from_utf8(left.runs[3].bytes()[..size].to_vec()).expect("a listing is text")
}

/// Rooms for whole listings: with heard lines there is not a byte to spare, with blocks or none the tally's line is.
fn listings(comparison: &mut Comparison) {
    let (metrics, decisions) = rooms_most();
    for (line, spare) in [("block\t1\n", value("LINE_MOST")), ("heard\t7\t1\n", 0)] {
        for count in [0, 1, 2, 5, 100] {
            let spare = if count == 0 { value("LINE_MOST") } else { spare };
            let sheet = format!("cover\t1\tH\tfirst\n{}end\n", line.repeat(count));
            assert!(listed(comparison, &sheet).ends_with(&format!("end\t{count}\n")));
            let room = listing_room(sheet.as_bytes()) - spare;
            let call =
                |metrics, decisions, room| asked::listing(sheet.as_bytes(), metrics, decisions, room, FIXED);
            replies(comparison, "DONE", call(metrics, decisions, room));
            replies(comparison, "LINE_ROOM", call(metrics, decisions, room - 1));
            replies(comparison, "METRIC_ROOM", call(metrics - 1, decisions, room));
            replies(comparison, "DECISION_ROOM", call(metrics, decisions - 1, room));
        }
    }
}

/// The order of a cover.
fn orders(comparison: &mut Comparison) {
    for (name, order) in [("ORDER_FIRST", "first"), ("ORDER_LAST", "last")] {
        let sheet = format!("cover\t2\tG\t{order}\nrow\t01\nend\n");
        let mut left = replies(comparison, "DONE", asked::plate_of_sheet(sheet.as_bytes(), FIXED));
        assert_eq!(left.runs[2].words(), [number(name)], "{name}");
    }
}

/// Refusals of a sheet.
fn refused_sheets(comparison: &mut Comparison) {
    let cover = "cover\t1\tG\tfirst\n";
    let most = value("SHEET_MOST");
    let blocks = "block\n".repeat((most - cover.len() - 12) / 6);
    let end = "end\n";
    let rest = "1".repeat(most - cover.len() - blocks.len() - end.len() - "block\t\n".len());
    let longest = format!("{cover}{blocks}block\t{rest}\n{end}");
    assert_eq!(longest.len(), most);
    assert!(!listed(comparison, &longest).starts_with("refused\t15"));
    for (name, sheet) in [
        ("SHEET_LENGTH", format!("{longest}\n")),
        ("SHEET_LINE", cover.to_string()),
        ("FIRST_FIELD", format!("{cover}word\n")),
        ("FIELD_COUNT", format!("{cover}end\t1\n")),
        ("FIELD_VALUE", format!("{cover}block\tx\n")),
        ("ROW_FIELD", format!("{cover}row\t2\n")),
    ] {
        replies(comparison, name, asked::plate_of_sheet(sheet.as_bytes(), FIXED));
        let listing = listed(comparison, &sheet);
        assert!(listing.starts_with(&format!("refused\t{}\t", number(name))), "{name}: {listing}");
    }
}

/// Every other number that a call may reply.
fn numbers(comparison: &mut Comparison) {
    let (kind, check) = (number("KIND_G"), number("KIND_H"));
    for (name, n, rows) in [
        ("LENGTH", 0, vec![]),
        ("ROW_COUNT", 8, vec![0; 65]),
        ("ROW_BEYOND", 8, vec![256]),
        ("TOO_WIDE", 26, pairs(13)),
    ] {
        replies(comparison, name, asked::prepare(n, kind, &rows, FIXED));
    }
    replies(comparison, "MASK_BEYOND", asked::prepare_masked(8, kind, &[255], 256, FIXED));
    replies(comparison, "SHAPE", asked::prepare(3, 2, &[7], FIXED));
    let mut left = replies(comparison, "DONE", asked::prepare(3, check, &[7], FIXED));
    let even = left.runs[1].words().to_vec();
    assert_eq!(even[value("PLATE_K")], 2, "the words of three positions with an even number of ones");
    let (metrics, decisions) = rooms_most();
    let call = |samples: &[i16]| asked::decode(&even, samples, metrics, decisions, FIXED);
    replies(comparison, "SAMPLE_COUNT", call(&[0, 0]));
    replies(comparison, "SAMPLE_RANGE", call(&[0, 0, 2048]));
    replies(comparison, "NO_PLATE", asked::encode(&[9; PLATE_WORDS], 0, FIXED));
    replies(comparison, "NO_STATE", asked::branch(&even, 3, 0, 0, FIXED));
    replies(comparison, "NO_BRANCH", asked::branch(&even, 2, 0, 1, FIXED));
    replies(comparison, "INFORMATION", asked::encode(&even, 4, FIXED));
    replies(comparison, "NO_CODEWORD", asked::read_back(&even, 7, FIXED));
    replies(comparison, "POSITION", asked::firmness(&even, &[0, 0, 0], 3, metrics, decisions, FIXED));
    for (name, word) in [("CHOSEN", 6), ("TIES", 5), ("SCORES_LESS", 0), ("NOT_IN_CODE", 7)] {
        let call = asked::why_not(&even, &[-1, -1, -1], word, metrics, decisions, FIXED);
        assert_eq!(replies(comparison, "DONE", call).runs[4].words()[0], number(name), "{name}");
    }
}

pub fn run(comparison: &mut Comparison) {
    comparison.begin("the header's macros");
    let widest = prepare(64, Kind::G, &pairs(12)).unwrap();
    let (metrics, decisions) = rooms_most();
    assert_eq!(rooms(&widest), (metrics, decisions), "the rooms for every plate are those of the widest");
    for plate in plates().chain([widest]) {
        working_rooms(comparison, &plate);
        plate_words(comparison, &plate);
        lines(comparison, &plate);
    }
    listings(comparison);
    refused_sheets(comparison);
    orders(comparison);
    numbers(comparison);
    further::run(comparison);
    assert_eq!(unasked(), Vec::<String>::new(), "macros of the header that nothing is held to");
}
