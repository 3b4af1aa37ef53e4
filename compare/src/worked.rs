//! The examples that the paper works out, and outside sheets with their listings.

use crate::asked::{self, FIXED};
use crate::call::Call;
use crate::header::{listing_room, rooms_most};
use crate::model::NO_BRANCH;
use std::fs;
use std::path::Path;

/// Answers a call: the reply, and the call as it was left.
pub type Answer<'a> = &'a mut dyn FnMut(Call) -> (u64, Call);

const SHEET: &str = "cover\t8\tG\tfirst\nrow\t11110000\nrow\t01011010\nrow\t00111100\nrow\t00001111\n\
                     block\t-3\t-2\t4\t-1\t5\t6\t-1\t7\nend\n";
const LISTING: &str =
    "plate\t8\t4\t3\nprofile\t0\t1\t2\t3\t2\t3\t2\t1\t0\nword\t11110000\t19\t44\t11\nend\t1\n";
const ROWS: [&str; 4] = ["11110000", "01011010", "00111100", "00001111"];
const SAMPLES: [i16; 8] = [-3, -2, 4, -1, 5, 6, -1, 7];

/// A word as the paper prints it.
fn word(printed: &str) -> u64 {
    printed.bytes().enumerate().map(|(i, b)| u64::from(b - b'0') << i).sum()
}

/// Whether the calls agreed with the paper so far.
struct Checked<'a> {
    answer: Answer<'a>,
    count: usize,
}

impl Checked<'_> {
    /// The reply, and one cell of one run, must be these.
    fn expect(&mut self, call: Call, reply: u64, cell: Option<(usize, usize, u64)>) -> Call {
        let shown = call.to_string();
        let (found, mut left) = (self.answer)(call);
        assert_eq!(found, reply, "{shown}");
        if let Some((run, at, value)) = cell {
            assert_eq!(left.runs[run].words()[at], value, "{shown}");
        }
        self.count += 1;
        left
    }

    fn plate(&mut self, n: u64, kind: u64, rows: &[u64]) -> Vec<u64> {
        self.expect(asked::prepare(n, kind, rows, FIXED), 0, Some((2, 0, 0))).runs[1].words().to_vec()
    }

    fn decodes(&mut self, plate: &[u64], samples: &[i16], answer: &str, metric: i32, counts: [u64; 2]) {
        let (metrics, decisions) = rooms_most();
        let call = asked::decode(plate, samples, metrics, decisions, FIXED);
        let mut left = self.expect(call, 0, Some((4, 0, word(answer))));
        assert_eq!(left.runs[5].metrics(), [metric]);
        assert_eq!(left.runs[6].words(), counts);
        let mut left = self.expect(asked::metric(plate, samples, metrics, FIXED), 0, None);
        assert_eq!((left.runs[3].metrics()[0], left.runs[4].words().to_vec()), (metric, counts.to_vec()));
        let call = asked::word(plate, samples, metrics, decisions, FIXED);
        let mut left = self.expect(call, 0, Some((4, 0, word(answer))));
        assert_eq!(left.runs[5].words(), counts);
    }

    /// Why a word is not the answer: the number of the reason, its position, its difference.
    fn explains(&mut self, plate: &[u64], samples: &[i16], named: u64, told: [u64; 2], difference: i32) {
        let (metrics, decisions) = rooms_most();
        let call = asked::why_not(plate, samples, named, metrics, decisions, FIXED);
        let mut left = self.expect(call, 0, None);
        assert_eq!((left.runs[4].words().to_vec(), left.runs[5].metrics()[0]), (told.to_vec(), difference));
    }

    /// The reading of a position: whether it is fixed, and its bit or margin.
    fn reads(&mut self, plate: &[u64], samples: &[i16], position: u64, fixed: u64, value: i32) {
        let (metrics, decisions) = rooms_most();
        let call = asked::firmness(plate, samples, position, metrics, decisions, FIXED);
        let mut left = self.expect(call, 0, Some((4, 0, fixed)));
        assert_eq!(left.runs[5].metrics(), [value]);
    }

    fn lists(&mut self, sheet: &[u8], listing: &[u8]) {
        let (metrics, decisions) = rooms_most();
        let call = asked::listing(sheet, metrics, decisions, listing_room(sheet), FIXED);
        let mut left = self.expect(call, 0, Some((4, 0, listing.len() as u64)));
        let found = &left.runs[3].bytes()[..listing.len()];
        assert!(found == listing, "{} where {} is due", found.escape_ascii(), listing.escape_ascii());
    }

    fn small_codes(&mut self) {
        let zero = self.plate(1, 0, &[]);
        self.decodes(&zero, &[-5], "0", -5, [1, 0]);
        self.reads(&zero, &[-5], 0, 1, 0);
        let whole = self.plate(1, 1, &[]);
        self.decodes(&whole, &[-5], "1", 5, [2, 1]);
        self.reads(&whole, &[-5], 0, 0, -10);
        let even = self.plate(3, 1, &[7]);
        assert_eq!(even[66..70], [0, 1, 1, 0]);
        self.decodes(&even, &[-1, -1, -1], "011", 1, [8, 3]);
        for (named, told, difference) in [
            ("011", [0, 0], 0),
            ("101", [3, 0], 0),
            ("000", [2, 0], 4),
            ("111", [1, 2], 0),
            ("0111", [1, 3], 0),
            ("11100001", [1, 2], 0),
        ] {
            self.explains(&even, &[-1, -1, -1], word(named), told, difference);
        }
        let thrice = self.plate(3, 0, &[7]);
        self.decodes(&thrice, &[2, -1, -1], "000", 0, [6, 1]);
        self.reads(&thrice, &[2, -1, -1], 1, 0, 0);
        self.explains(&thrice, &[2, -1, -1], word("111"), [3, 0], 0);
        self.explains(&thrice, &[2, -1, -1], word("010"), [1, 1], 0);
    }

    fn the_sheet(&mut self) {
        self.lists(SHEET.as_bytes(), LISTING.as_bytes());
        self.lists(SHEET.replace('G', "H").as_bytes(), LISTING.as_bytes());
        let plate = self.plate(8, 0, &ROWS.map(word));
        assert_eq!(plate[66..75], [0, 1, 2, 3, 2, 3, 2, 1, 0]);
        self.decodes(&plate, &SAMPLES, "11110000", 19, [44, 11]);
        for (position, margin) in [-4, -4, -4, -4, 6, 6, 6, 6].into_iter().enumerate() {
            self.reads(&plate, &SAMPLES, position as u64, 0, margin);
        }
        for (depth, state, bit, next) in [(4, 1, 0, 5), (4, 1, 1, 1), (3, 1, 1, 0), (3, 6, 0, 3)] {
            self.expect(asked::branch(&plate, depth, state, bit, FIXED), 0, Some((1, 0, next)));
        }
        self.expect(asked::branch(&plate, 3, 1, 0, FIXED), NO_BRANCH, None);
        self.expect(asked::branch(&plate, 4, 4, 0, FIXED), 12, None);
        self.expect(asked::encode(&plate, 9, FIXED), 0, Some((1, 0, word("11111111"))));
        self.expect(asked::encode(&plate, 16, FIXED), 13, None);
        self.expect(asked::read_back(&plate, word("11010010"), FIXED), 14, None);
    }

    /// The sheet with the mask 10000001.
    fn the_masked_sheet(&mut self) {
        let sheet = SHEET.replacen("first\n", "first\nmask\t10000001\n", 1);
        self.lists(sheet.as_bytes(), LISTING.replace("11110000\t19", "01000010\t21").as_bytes());
        let call = asked::prepare_masked(8, 0, &ROWS.map(word), word("10000001"), FIXED);
        let plate = self.expect(call, 0, Some((2, 0, 0))).runs[1].words().to_vec();
        let plain = self.plate(8, 0, &ROWS.map(word));
        assert_eq!((&plate[..131], plate[131]), (&plain[..131], 129));
        self.decodes(&plate, &SAMPLES, "01000010", 21, [44, 11]);
        self.decodes(&plate, &[0; 8], "00010111", 0, [44, 11]);
        for (position, margin) in [4, -4, 4, 4, 14, 6, -6, 14].into_iter().enumerate() {
            self.reads(&plate, &SAMPLES, position as u64, 0, margin);
        }
        for (depth, state, bit, next) in
            [(0, 0, 0, 1), (0, 0, 1, 0), (4, 1, 0, 5), (7, 0, 1, 0), (7, 1, 0, 0)]
        {
            self.expect(asked::branch(&plate, depth, state, bit, FIXED), 0, Some((1, 0, next)));
        }
        for (state, bit) in [(0, 0), (1, 1)] {
            self.expect(asked::branch(&plate, 7, state, bit, FIXED), NO_BRANCH, None);
        }
        self.expect(asked::encode(&plate, 0, FIXED), 0, Some((1, 0, word("10000001"))));
        self.expect(asked::encode(&plate, 9, FIXED), 0, Some((1, 0, word("01111110"))));
        self.expect(asked::read_back(&plate, word("01111110"), FIXED), 0, Some((1, 0, 9)));
        self.expect(asked::read_back(&plate, word("11111111"), FIXED), 14, None);
        for (named, told, difference) in [
            ("11110000", [1, 3], 0),
            ("01000010", [0, 0], 0),
            ("10110010", [2, 0], 4),
            ("010000101", [1, 8], 0),
        ] {
            self.explains(&plate, &SAMPLES, word(named), told, difference);
        }
        self.explains(&plate, &[0; 8], word("10000001"), [3, 0], 0);
    }

    /// The sheet's code with rooms and samples at their bounds.
    fn the_sheet_at_bounds(&mut self) {
        let plate = self.plate(8, 0, &ROWS.map(word));
        for (metrics, decisions, reply) in [(15, 8, 8), (16, 7, 9), (16, 8, 0)] {
            self.expect(asked::decode(&plate, &SAMPLES, metrics, decisions, FIXED), reply, None);
            self.expect(asked::word(&plate, &SAMPLES, metrics, decisions, FIXED), reply, None);
            let reply = if reply == 9 { 0 } else { reply };
            self.expect(asked::metric(&plate, &SAMPLES, metrics, FIXED), reply, None);
        }
        for (position, metrics, reply) in [(7, 16, 0), (8, 15, 21), (7, 15, 8)] {
            self.expect(asked::firmness(&plate, &SAMPLES, position, metrics, 8, FIXED), reply, None);
        }
        for (sample, reply) in [(2047, 0), (-2047, 0), (2048, 7), (-2048, 7)] {
            let mut samples = SAMPLES;
            samples[5] = sample;
            let place = if reply == 7 { 5 } else { 0 };
            self.expect(asked::decode(&plate, &samples, 16, 8, FIXED), reply, Some((7, 0, place)));
        }
        for (sample, answer) in [(2047, 0), (-2047, 15)] {
            let mut samples = SAMPLES;
            samples[2] = sample;
            self.expect(asked::decode(&plate, &samples, 16, 8, FIXED), 0, Some((4, 0, answer)));
        }
    }

    fn matrices_at_bounds(&mut self) {
        self.expect(asked::prepare(8, 0, &[256], FIXED), 3, Some((2, 0, 0)));
        self.expect(asked::prepare(0, 0, &[], FIXED), 1, Some((2, 0, 0)));
        self.expect(asked::prepare(65, 0, &[], FIXED), 1, Some((2, 0, 0)));
        self.expect(asked::prepare_masked(8, 0, &[255], 256, FIXED), 23, Some((2, 0, 0)));
        let pairs = |count: u64| (0..count).map(|i| 1 << i | 1 << (i + count)).collect::<Vec<u64>>();
        let widest = self.plate(24, 0, &pairs(12));
        assert_eq!(widest[66..].iter().max(), Some(&12));
        self.expect(asked::prepare(26, 0, &pairs(13), FIXED), 4, Some((2, 0, 13)));
        self.expect(asked::prepare_masked(26, 0, &pairs(13), 1 << 26, FIXED), 23, Some((2, 0, 0)));
        self.expect(asked::prepare_masked(8, 0, &[1, 256], 256, FIXED), 3, Some((2, 0, 1)));
        let top = [1, 1 << 63];
        let table: [(u64, u64, &[u64], [u64; 2]); 3] =
            [(64, 1, &[], [64, 0]), (64, 0, &[3; 64], [1, 1]), (64, 1, &top, [62, 0])];
        for (n, kind, rows, rows_and_width) in table {
            let plate = self.plate(n, kind, rows);
            assert_eq!([plate[1], *plate[66..].iter().max().unwrap()], rows_and_width);
        }
        self.expect(asked::prepare(64, 0, &[3; 65], FIXED), 2, Some((2, 0, 0)));
        self.expect(asked::prepare(63, 1, &top, FIXED), 3, Some((2, 0, 1)));
    }

    /// The sheet's rows as parity check, and in another order, give the same plate.
    fn the_same_plate(&mut self) {
        let plate = self.plate(8, 0, &ROWS.map(word));
        let [a, b, c, d] = ROWS.map(word);
        assert_eq!(self.plate(8, 1, &[a, b, c, d]), plate);
        assert_eq!(self.plate(8, 0, &[c, a, d, b]), plate);
    }
}

/// The paper's worked examples; gives back how many calls were asked.
pub fn examples(answer: Answer) -> usize {
    let mut checked = Checked { answer, count: 0 };
    checked.small_codes();
    checked.the_sheet();
    checked.the_masked_sheet();
    checked.the_sheet_at_bounds();
    checked.matrices_at_bounds();
    checked.the_same_plate();
    checked.count
}

/// Each NAME.sheet of a folder must give NAME.listing; gives back how many there were.
pub fn outside_sheets(folder: &Path, answer: Answer) -> usize {
    let mut checked = Checked { answer, count: 0 };
    let entries = fs::read_dir(folder).expect("the folder of sheets is there");
    let mut paths: Vec<_> = entries.map(|entry| entry.unwrap().path()).collect();
    paths.sort();
    for path in paths.iter().filter(|path| path.extension().is_some_and(|end| end == "sheet")) {
        let listing = fs::read(path.with_extension("listing")).expect("each sheet has its listing");
        checked.lists(&fs::read(path).unwrap(), &listing);
    }
    checked.count
}
