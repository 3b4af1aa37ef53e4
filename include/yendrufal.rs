//! The library's C interface in Rust types: one file, to be taken into a program as a module, in edition 2018 or later. It needs nothing
//! but `core`, of Rust 1.82 or later.
//!
//! A [`Plate`] is prepared once for each code, [`Rooms`] are lent to each call that decodes, and a [`Refusal`] says what a call was
//! refused for. The library has no memory of its own and keeps nothing between calls. `examples/decode.rs` uses it:
//!
//! ```text
//! rustc -O --edition 2021 examples/decode.rs -C link-arg=target/staticlib/libexports.a -o target/decode
//! ```
//!
//! `include/yendrufal.h` says what each call does. Position i of a word is its bit of weight 2^i; a positive sample favours bit 0.

use core::fmt;

/// Metrics that are enough for every plate.
pub const METRICS_MOST: usize = 8192;
/// Decision words that are enough for every plate.
pub const DECISIONS_MOST: usize = 4096;
/// Numbers of working room that are enough for the weights of every plate.
pub const WEIGHT_WORKING_MOST: usize = 532_480;
/// Bytes that are enough for every listing line.
pub const LINE_MOST: usize = 256;
/// Bytes that are enough for the alist text of every matrix.
pub const ALIST_MOST: usize = 24576;
/// Numbers that are enough to judge every listing of branches.
pub const JUDGING_MOST: usize = 4096;

/// The numbers of a plate's run, and where its parts stand.
const PLATE_WORDS: usize = 132;
const ROWS: usize = 2;
const PROFILE: usize = 66;
const MASK: usize = 131;

/// The calls as C has them, which `include/yendrufal.h` tells: a run is a pointer and the number of its cells.
#[allow(missing_docs)]
pub mod raw {
    #[rustfmt::skip]
    unsafe extern "C" {
        pub fn yendrufal_prepare(n: u64, kind: u64, rows: *const u64, row_count: usize, mask: u64, plate: *mut u64,
            plate_length: usize, place: *mut u64, place_length: usize) -> u64;
        pub fn yendrufal_plate_of_sheet(sheet: *const u8, sheet_length: usize, plate: *mut u64, plate_length: usize,
            order: *mut u64, order_length: usize, place: *mut u64, place_length: usize) -> u64;
        pub fn yendrufal_write_alist(n: u64, rows: *const u64, row_count: usize, room: *mut u8, room_length: usize,
            written: *mut u64, written_length: usize, place: *mut u64, place_length: usize) -> u64;
        pub fn yendrufal_read_alist(text: *const u8, text_length: usize, sizes: *mut u64, sizes_length: usize,
            rows: *mut u64, rows_length: usize, place: *mut u64, place_length: usize) -> u64;
        pub fn yendrufal_branch(plate: *const u64, plate_length: usize, depth: u64, state: u64, bit: u64, next: *mut u64,
            next_length: usize) -> u64;
        pub fn yendrufal_encode(plate: *const u64, plate_length: usize, information: u64, word: *mut u64,
            word_length: usize) -> u64;
        pub fn yendrufal_read_back(plate: *const u64, plate_length: usize, word: u64, information: *mut u64,
            information_length: usize) -> u64;
        pub fn yendrufal_widest_entry(plate: *const u64, plate_length: usize, widest: *mut u64, widest_length: usize) -> u64;
        pub fn yendrufal_weights(plate: *const u64, plate_length: usize, counts: *mut u64, count_length: usize,
            working: *mut u64, working_length: usize, least: *mut u64, least_length: usize) -> u64;
        pub fn yendrufal_level(step: f32, top: u64, value: f32, erased: u64, level: *mut i16, level_length: usize) -> u64;
        pub fn yendrufal_levels(n: u64, step: f32, top: u64, values: *const f32, value_count: usize, erased: u64,
            levels: *mut i16, level_count: usize, place: *mut u64, place_length: usize) -> u64;
        pub fn yendrufal_decode(plate: *const u64, plate_length: usize, samples: *const i16, sample_count: usize,
            metrics: *mut i32, metric_count: usize, decisions: *mut u64, decision_count: usize, word: *mut u64,
            word_length: usize, metric: *mut i32, metric_length: usize, counts: *mut u64, counts_length: usize,
            place: *mut u64, place_length: usize) -> u64;
        pub fn yendrufal_decode_blocks(plate: *const u64, plate_length: usize, samples: *const i16, sample_count: usize,
            metrics: *mut i32, metric_count: usize, decisions: *mut u64, decision_count: usize, words: *mut u64,
            word_count: usize, scores: *mut i32, score_count: usize, counts: *mut u64, counts_length: usize,
            place: *mut u64, place_length: usize) -> u64;
        pub fn yendrufal_metric(plate: *const u64, plate_length: usize, samples: *const i16, sample_count: usize,
            metrics: *mut i32, metric_count: usize, metric: *mut i32, metric_length: usize, counts: *mut u64,
            counts_length: usize, place: *mut u64, place_length: usize) -> u64;
        pub fn yendrufal_word(plate: *const u64, plate_length: usize, samples: *const i16, sample_count: usize,
            metrics: *mut i32, metric_count: usize, decisions: *mut u64, decision_count: usize, word: *mut u64,
            word_length: usize, counts: *mut u64, counts_length: usize, place: *mut u64, place_length: usize) -> u64;
        pub fn yendrufal_firmness(plate: *const u64, plate_length: usize, samples: *const i16, sample_count: usize,
            position: u64, metrics: *mut i32, metric_count: usize, decisions: *mut u64, decision_count: usize,
            fixed: *mut u64, fixed_length: usize, value: *mut i32, value_length: usize, place: *mut u64,
            place_length: usize) -> u64;
        pub fn yendrufal_firmness_all(plate: *const u64, plate_length: usize, samples: *const i16, sample_count: usize,
            metrics: *mut i32, metric_count: usize, decisions: *mut u64, decision_count: usize, fixed: *mut u64,
            fixed_length: usize, values: *mut i32, value_length: usize, place: *mut u64, place_length: usize) -> u64;
        pub fn yendrufal_why_not(plate: *const u64, plate_length: usize, samples: *const i16, sample_count: usize,
            word: u64, metrics: *mut i32, metric_count: usize, decisions: *mut u64, decision_count: usize,
            reason: *mut u64, reason_length: usize, difference: *mut i32, difference_length: usize, place: *mut u64,
            place_length: usize) -> u64;
        pub fn yendrufal_judge(plate: *const u64, plate_length: usize, text: *const u8, text_length: usize,
            room: *mut u64, room_length: usize, verdict: *mut u64, verdict_length: usize, states: *mut u64,
            states_length: usize, branches: *mut u64, branches_length: usize, place: *mut u64,
            place_length: usize) -> u64;
        pub fn yendrufal_write_plate(plate: *const u64, plate_length: usize, line: *mut u8, line_length: usize,
            written: *mut u64, written_length: usize) -> u64;
        pub fn yendrufal_write_profile(plate: *const u64, plate_length: usize, line: *mut u8, line_length: usize,
            written: *mut u64, written_length: usize) -> u64;
        pub fn yendrufal_write_word(plate: *const u64, plate_length: usize, word: u64, metric: i32, additions: u64,
            comparisons: u64, line: *mut u8, line_length: usize, written: *mut u64, written_length: usize) -> u64;
        pub fn yendrufal_write_refused(number: u64, place: u64, field: u64, line: *mut u8, line_length: usize,
            written: *mut u64, written_length: usize) -> u64;
        pub fn yendrufal_write_end(count: u64, line: *mut u8, line_length: usize, written: *mut u64,
            written_length: usize) -> u64;
        pub fn yendrufal_write_tally(decoded: u64, refused: u64, repeated: u64, late: u64, missing: u64, opposing: u64,
            zeros: u64, above: u64, below: u64, line: *mut u8, line_length: usize, written: *mut u64,
            written_length: usize) -> u64;
        pub fn yendrufal_write_weight(weight: u64, count: u64, line: *mut u8, line_length: usize, written: *mut u64,
            written_length: usize) -> u64;
        pub fn yendrufal_write_least(weight: u64, line: *mut u8, line_length: usize, written: *mut u64,
            written_length: usize) -> u64;
        pub fn yendrufal_write_no_least(line: *mut u8, line_length: usize, written: *mut u64,
            written_length: usize) -> u64;
        pub fn yendrufal_listing(sheet: *const u8, sheet_length: usize, metrics: *mut i32, metric_count: usize,
            decisions: *mut u64, decision_count: usize, listing: *mut u8, listing_length: usize, written: *mut u64,
            written_length: usize) -> u64;
    }
}

/// Why a call was refused: the number of docs/REFUSALS.md, and its place. A refused call changed nothing that was lent to it.
#[derive(Clone, Copy, Debug, PartialEq, Eq)]
pub struct Refusal {
    /// Which refusal, from 1 on.
    pub number: u64,
    /// A row, a depth, a position or a line of a text, by the number; else 0.
    pub place: u64,
}

/// What a call gives, or why it was refused.
pub type Result<T> = core::result::Result<T, Refusal>;

/// The words of each refusal, from number 1 on; docs/REFUSALS.md and the header have the same.
const WORDS: [&str; 28] = [
    "length is not 1 to 64",
    "more than 64 rows",
    "a row has a one beyond its length",
    "plate too wide",
    "not a prepared plate",
    "number of samples is not n",
    "sample outside -2047 to 2047",
    "working room too short",
    "decision room too short",
    "line missing or not ended",
    "line longer than its room",
    "no such depth, state or bit",
    "information beyond k",
    "not a codeword",
    "input over 32,768 bytes",
    "alist fault",
    "first field unknown or out of its turn",
    "wrong number of fields",
    "bad number, letter or order",
    "row or mask of wrong length or character",
    "position is n or beyond",
    "k is 64",
    "mask has a one beyond its length",
    "step or top level out of range",
    "a heard value is not a number",
    "bad branch line or depth order",
    "branch told twice",
    "more than 1,024 branch lines",
];

impl Refusal {
    /// The refusal in words.
    pub fn words(&self) -> &'static str {
        let at = (self.number as usize).wrapping_sub(1);
        WORDS.get(at).copied().unwrap_or("no refusal of this library")
    }
}

impl fmt::Display for Refusal {
    fn fmt(&self, f: &mut fmt::Formatter) -> fmt::Result {
        write!(f, "refusal {}, place {}: {}", self.number, self.place, self.words())
    }
}

impl core::error::Error for Refusal {}

/// What a reply of the library says of a value that is then there.
fn replied<T>(number: u64, place: u64, value: T) -> Result<T> {
    if number == 0 {
        Ok(value)
    } else {
        Err(Refusal { number, place })
    }
}

/// How the rows of a matrix are meant.
#[derive(Clone, Copy, Debug, PartialEq, Eq)]
pub enum Kind {
    /// Generator: the code is all sums of rows.
    G,
    /// Parity check: the code is all words even with every row.
    H,
}

/// Which position stands at the left of a sheet's rows and samples.
#[derive(Clone, Copy, Debug, PartialEq, Eq)]
pub enum Order {
    /// Position 0.
    First,
    /// Position n - 1: samples as the sheet lists them have to be turned.
    Last,
}

/// Why a sheet was refused. For 10 and 17 to 20 the place of the refusal is a line of the sheet, from 1.
#[derive(Clone, Copy, Debug, PartialEq, Eq)]
pub struct SheetRefusal {
    /// The number, and the line.
    pub refusal: Refusal,
    /// The field of that line, from 1; 0 for 10 and for refusals that are about no line.
    pub field: u64,
}

/// Working rooms, lent to a call. Where it succeeds, what it needed of them is zero afterwards.
pub struct Rooms<'a> {
    /// At least [`Plate::metrics_needed`].
    pub metrics: &'a mut [i32],
    /// At least [`Plate::decisions_needed`].
    pub decisions: &'a mut [u64],
}

/// How many steps a decoding took.
#[derive(Clone, Copy, Debug, Default, PartialEq, Eq)]
pub struct Counts {
    /// One for each branch.
    pub additions: u64,
    /// For each state past the start one fewer than the branches that enter it.
    pub comparisons: u64,
}

/// The word of greatest metric, its metric, and the counts.
#[derive(Clone, Copy, Debug, Default, PartialEq, Eq)]
pub struct Answer {
    /// The word of the plate that was picked.
    pub word: u64,
    /// The sum of its samples, each subtracted where the word has a one.
    pub metric: i32,
    /// What picking it took.
    pub counts: Counts,
}

/// How firmly a position was received.
#[derive(Clone, Copy, Debug, PartialEq, Eq)]
pub enum Reading {
    /// Every word of the plate has this bit there.
    Fixed(bool),
    /// The best metric with 0 there minus the best with 1.
    Open(i32),
}

/// What a call says of a reading by its two numbers.
fn read(fixed: u64, value: i32) -> Reading {
    if fixed == 1 {
        Reading::Fixed(value == 1)
    } else {
        Reading::Open(value)
    }
}

/// How many words of a code have each weight.
#[derive(Clone, Copy, Debug, PartialEq, Eq)]
pub struct Weights {
    /// The number of words with as many ones as the place says.
    pub counts: [u64; 65],
    /// The smallest weight above 0, where there is one.
    pub least: Option<u64>,
}

/// How single-precision values become levels: a level is as many steps, up to the top level.
#[derive(Clone, Copy, Debug, PartialEq)]
pub struct Setting {
    /// Finite and above 0.
    pub step: f32,
    /// 1 to 127.
    pub top: u64,
}

/// Why a word was not the one that decoding picks.
#[derive(Clone, Copy, Debug, PartialEq, Eq)]
pub enum Reason {
    /// It was the one.
    Chosen,
    /// No word of the plate; the first position at which none continues its beginning.
    NotInCode(u64),
    /// It scores less than the answer, by this difference.
    ScoresLess(i32),
    /// It scores the same and loses; the first position of difference.
    Ties(u64),
}

/// What judging another firm's trellis found.
#[derive(Clone, Copy, Debug, PartialEq, Eq)]
pub enum Judgement {
    /// Its full paths spell exactly the plate's words.
    Right(Surplus),
    /// The earliest word that tells: a full path spells it, and it is none of the plate's.
    SpelledWrongly(u64),
    /// The earliest word that tells: it is one of the plate's, and no full path spells it.
    NotSpelled(u64),
}

/// By how much the full paths of a right listing have more than our trellis; 0 beyond the plate's length.
#[derive(Clone, Copy, Debug, PartialEq, Eq)]
pub struct Surplus {
    /// States, by depth.
    pub states: [u64; 65],
    /// Branches, by section.
    pub branches: [u64; 64],
}

/// A parity check matrix.
#[derive(Clone, Copy, Debug, PartialEq, Eq)]
pub struct Matrix {
    /// The number of columns.
    pub n: u64,
    count: usize,
    table: [u64; 64],
}

impl Matrix {
    /// Its rows.
    pub fn rows(&self) -> &[u64] {
        &self.table[..self.count]
    }

    /// The matrix of an alist text. Refusal 16, whose place is a line, from 1.
    #[rustfmt::skip]
    pub fn read_alist(text: &[u8]) -> Result<Matrix> {
        let (mut sizes, mut table, mut place) = ([0; 2], [0; 64], 0);
        let number = unsafe {
            raw::yendrufal_read_alist(text.as_ptr(), text.len(), sizes.as_mut_ptr(), 2, table.as_mut_ptr(), 64, &mut place, 1)
        };
        replied(number, place, Matrix { n: sizes[0], count: sizes[1] as usize, table })
    }
}

/// The alist text of a parity check matrix of n columns at the start of a room; its bytes. Refusals 1, 2, 3, 16, 11.
#[rustfmt::skip]
pub fn write_alist(n: u64, rows: &[u64], room: &mut [u8]) -> Result<usize> {
    let (mut count, mut place) = (0, 0);
    let number = unsafe {
        raw::yendrufal_write_alist(n, rows.as_ptr(), rows.len(), room.as_mut_ptr(), room.len(), &mut count, 1, &mut place, 1)
    };
    replied(number, place, count as usize)
}

/// A prepared plate, or any 132 numbers that are handed over as one: each call tests it, and refuses with 5.
#[derive(Clone, Copy, Debug, PartialEq, Eq)]
pub struct Plate {
    words: [u64; PLATE_WORDS],
}

impl Plate {
    /// The plate of a matrix, with a mask that is added to every word (0 for none). Refusals 1, 2, 3, 23, 4.
    pub fn prepare(n: u64, kind: Kind, rows: &[u64], mask: u64) -> Result<Plate> {
        let (mut plate, mut place) = (Plate { words: [0; PLATE_WORDS] }, 0);
        let (words, kind) = (plate.words.as_mut_ptr(), kind as u64);
        let (row, count) = (rows.as_ptr(), rows.len());
        let number =
            unsafe { raw::yendrufal_prepare(n, kind, row, count, mask, words, PLATE_WORDS, &mut place, 1) };
        replied(number, place, plate)
    }

    /// The plate of a sheet, its rows and its mask taken in the order of its cover, and that order. Refusals 15, 10, 17 to 20, 1, 2, 4.
    #[rustfmt::skip]
    pub fn of_sheet(sheet: &[u8]) -> core::result::Result<(Plate, Order), SheetRefusal> {
        let (mut plate, mut order, mut place) = (Plate { words: [0; PLATE_WORDS] }, 0, [0; 2]);
        let number = unsafe {
            raw::yendrufal_plate_of_sheet(sheet.as_ptr(), sheet.len(), plate.words.as_mut_ptr(), PLATE_WORDS, &mut order, 1,
                place.as_mut_ptr(), 2)
        };
        let order = if order == 0 { Order::First } else { Order::Last };
        replied(number, place[0], (plate, order)).map_err(|refusal| SheetRefusal { refusal, field: place[1] })
    }

    /// A plate from its numbers, as [`Plate::words`] gave them.
    pub fn from_words(words: [u64; PLATE_WORDS]) -> Plate {
        Plate { words }
    }

    /// The numbers of the plate, in the order of the header.
    pub fn words(&self) -> &[u64; PLATE_WORDS] {
        &self.words
    }

    /// The length.
    pub fn n(&self) -> u64 {
        self.words[0]
    }

    /// The number of rows.
    pub fn k(&self) -> u64 {
        self.words[1]
    }

    /// The rows, in order of their heads.
    pub fn rows(&self) -> &[u64] {
        &self.words[ROWS..][..self.k().min(64) as usize]
    }

    /// How many rows are live at each depth, 0 to n.
    pub fn profile(&self) -> &[u64] {
        &self.words[PROFILE..][..=self.n().min(64) as usize]
    }

    /// What is added to every word.
    pub fn mask(&self) -> u64 {
        self.words[MASK]
    }

    /// m, the largest profile entry; one over 12, which no prepared plate has, counts as 12.
    pub fn widest(&self) -> u32 {
        self.profile().iter().fold(0, |widest, &entry| widest.max(entry.min(12) as u32))
    }

    /// The same of a plate that is tested. Refusal 5.
    pub fn widest_entry(&self) -> Result<u64> {
        let (plate, mut widest) = (self.words.as_ptr(), 0);
        let number = unsafe { raw::yendrufal_widest_entry(plate, PLATE_WORDS, &mut widest, 1) };
        replied(number, 0, widest)
    }

    /// The metrics that decoding needs.
    pub fn metrics_needed(&self) -> usize {
        2 << self.widest()
    }

    /// The decision words that decoding needs.
    pub fn decisions_needed(&self) -> usize {
        (self.n().min(64) as usize) << self.widest().saturating_sub(6)
    }

    /// The working room that [`Plate::weights`] needs.
    pub fn weight_working_needed(&self) -> usize {
        130 << self.widest()
    }

    /// How many words of the plate's code have each weight, its mask left aside. What was needed of the working room is zero afterwards.
    /// Refusals 5, 22, 8.
    #[rustfmt::skip]
    pub fn weights(&self, working: &mut [u64]) -> Result<Weights> {
        let (mut counts, mut least) = ([0; 65], 0);
        let number = unsafe {
            raw::yendrufal_weights(self.words.as_ptr(), PLATE_WORDS, counts.as_mut_ptr(), counts.len(), working.as_mut_ptr(),
                working.len(), &mut least, 1)
        };
        replied(number, 0, Weights { counts, least: if least == 0 { None } else { Some(least) } })
    }

    /// The state that the branch with this bit leads to, or none. Refusals 5, 12.
    pub fn branch(&self, depth: u64, state: u64, bit: u64) -> Result<Option<u64>> {
        const NO_BRANCH: u64 = 100;
        let (plate, mut next) = (self.words.as_ptr(), 0);
        match unsafe { raw::yendrufal_branch(plate, PLATE_WORDS, depth, state, bit, &mut next, 1) } {
            NO_BRANCH => Ok(None),
            number => replied(number, 0, Some(next)),
        }
    }

    /// The word of an information. Refusals 5, 13.
    pub fn encode(&self, information: u64) -> Result<u64> {
        let mut word = 0;
        let plate = self.words.as_ptr();
        let number = unsafe { raw::yendrufal_encode(plate, PLATE_WORDS, information, &mut word, 1) };
        replied(number, 0, word)
    }

    /// The information of a word. Refusals 5, 14.
    pub fn read_back(&self, word: u64) -> Result<u64> {
        let mut information = 0;
        let plate = self.words.as_ptr();
        let number = unsafe { raw::yendrufal_read_back(plate, PLATE_WORDS, word, &mut information, 1) };
        replied(number, 0, information)
    }

    /// The word of greatest metric, of equals the earliest. Refusals 5 to 9.
    #[rustfmt::skip]
    pub fn decode(&self, samples: &[i16], rooms: &mut Rooms) -> Result<Answer> {
        let (mut word, mut metric, mut counts, mut place) = (0, 0, [0; 2], 0);
        let number = unsafe {
            raw::yendrufal_decode(self.words.as_ptr(), PLATE_WORDS, samples.as_ptr(), samples.len(),
                rooms.metrics.as_mut_ptr(), rooms.metrics.len(), rooms.decisions.as_mut_ptr(), rooms.decisions.len(),
                &mut word, 1, &mut metric, 1, counts.as_mut_ptr(), 2, &mut place, 1)
        };
        replied(number, place, Answer { word, metric, counts: counted(counts) })
    }

    /// Many blocks in one call: word and metric of block b, the n samples from b * n on, go to place b of `words` and `scores`, of which
    /// there are as many as blocks. Gives the counts of each block, 0 where there is none. Refusals 5 to 9.
    #[rustfmt::skip]
    pub fn decode_blocks(&self, samples: &[i16], rooms: &mut Rooms, words: &mut [u64], scores: &mut [i32]) -> Result<Counts> {
        let (mut counts, mut place) = ([0; 2], 0);
        let number = unsafe {
            raw::yendrufal_decode_blocks(self.words.as_ptr(), PLATE_WORDS, samples.as_ptr(), samples.len(),
                rooms.metrics.as_mut_ptr(), rooms.metrics.len(), rooms.decisions.as_mut_ptr(), rooms.decisions.len(),
                words.as_mut_ptr(), words.len(), scores.as_mut_ptr(), scores.len(), counts.as_mut_ptr(), 2, &mut place, 1)
        };
        replied(number, place, counted(counts))
    }

    /// The greatest metric alone, for a receiver that tries several plates. Refusals 5 to 8.
    #[rustfmt::skip]
    pub fn best_metric(&self, samples: &[i16], metrics: &mut [i32]) -> Result<(i32, Counts)> {
        let (mut metric, mut counts, mut place) = (0, [0; 2], 0);
        let number = unsafe {
            raw::yendrufal_metric(self.words.as_ptr(), PLATE_WORDS, samples.as_ptr(), samples.len(),
                metrics.as_mut_ptr(), metrics.len(), &mut metric, 1, counts.as_mut_ptr(), 2, &mut place, 1)
        };
        replied(number, place, (metric, counted(counts)))
    }

    /// The word that decoding gives, alone. Refusals 5 to 9.
    #[rustfmt::skip]
    pub fn best_word(&self, samples: &[i16], rooms: &mut Rooms) -> Result<(u64, Counts)> {
        let (mut word, mut counts, mut place) = (0, [0; 2], 0);
        let number = unsafe {
            raw::yendrufal_word(self.words.as_ptr(), PLATE_WORDS, samples.as_ptr(), samples.len(),
                rooms.metrics.as_mut_ptr(), rooms.metrics.len(), rooms.decisions.as_mut_ptr(), rooms.decisions.len(),
                &mut word, 1, counts.as_mut_ptr(), 2, &mut place, 1)
        };
        replied(number, place, (word, counted(counts)))
    }

    /// How firmly a position was received. Refusals 5, 6, 7, 21, 8, 9.
    #[rustfmt::skip]
    pub fn firmness(&self, samples: &[i16], position: u64, rooms: &mut Rooms) -> Result<Reading> {
        let (mut fixed, mut value, mut place) = (0, 0, 0);
        let number = unsafe {
            raw::yendrufal_firmness(self.words.as_ptr(), PLATE_WORDS, samples.as_ptr(), samples.len(), position,
                rooms.metrics.as_mut_ptr(), rooms.metrics.len(), rooms.decisions.as_mut_ptr(), rooms.decisions.len(),
                &mut fixed, 1, &mut value, 1, &mut place, 1)
        };
        replied(number, place, read(fixed, value))
    }

    /// How firmly each position was received; none from n on. Refusals 5 to 9.
    #[rustfmt::skip]
    pub fn firmness_all(&self, samples: &[i16], rooms: &mut Rooms) -> Result<[Option<Reading>; 64]> {
        let (mut fixed, mut values, mut place) = ([0; 64], [0; 64], 0);
        let number = unsafe {
            raw::yendrufal_firmness_all(self.words.as_ptr(), PLATE_WORDS, samples.as_ptr(), samples.len(),
                rooms.metrics.as_mut_ptr(), rooms.metrics.len(), rooms.decisions.as_mut_ptr(), rooms.decisions.len(),
                fixed.as_mut_ptr(), 64, values.as_mut_ptr(), 64, &mut place, 1)
        };
        let mut readings = [None; 64];
        for position in 0..self.n().min(64) as usize {
            readings[position] = Some(read(fixed[position], values[position]));
        }
        replied(number, place, readings)
    }

    /// Why a word was not the one that decoding picks. Refusals 5 to 9.
    #[rustfmt::skip]
    pub fn why_not(&self, samples: &[i16], word: u64, rooms: &mut Rooms) -> Result<Reason> {
        let (mut told, mut difference, mut place) = ([0; 2], 0, 0);
        let number = unsafe {
            raw::yendrufal_why_not(self.words.as_ptr(), PLATE_WORDS, samples.as_ptr(), samples.len(), word,
                rooms.metrics.as_mut_ptr(), rooms.metrics.len(), rooms.decisions.as_mut_ptr(), rooms.decisions.len(),
                told.as_mut_ptr(), 2, &mut difference, 1, &mut place, 1)
        };
        let reason = match told[0] {
            0 => Reason::Chosen,
            1 => Reason::NotInCode(told[1]),
            2 => Reason::ScoresLess(difference),
            _ => Reason::Ties(told[1]),
        };
        replied(number, place, reason)
    }

    /// Another firm's branch lines held against the plate, in a room of four numbers a line. Refusals 5, 28, 26, 27, 8.
    #[rustfmt::skip]
    pub fn judge(&self, text: &[u8], room: &mut [u64]) -> Result<Judgement> {
        let (mut told, mut surplus, mut place) = ([0; 2], Surplus { states: [0; 65], branches: [0; 64] }, 0);
        let number = unsafe {
            raw::yendrufal_judge(self.words.as_ptr(), PLATE_WORDS, text.as_ptr(), text.len(), room.as_mut_ptr(), room.len(),
                told.as_mut_ptr(), 2, surplus.states.as_mut_ptr(), 65, surplus.branches.as_mut_ptr(), 64, &mut place, 1)
        };
        let judgement = match told[0] {
            0 => Judgement::Right(surplus),
            1 => Judgement::SpelledWrongly(told[1]),
            _ => Judgement::NotSpelled(told[1]),
        };
        replied(number, place, judgement)
    }

    /// The line `plate` at the start of a room; its bytes, the line feed included. Refusals 5, 11, as of the next two.
    pub fn write_plate(&self, line: &mut [u8]) -> Result<usize> {
        let (plate, room, size) = (self.words.as_ptr(), line.as_mut_ptr(), line.len());
        written(|count| unsafe { raw::yendrufal_write_plate(plate, PLATE_WORDS, room, size, count, 1) })
    }

    /// The line `profile`.
    pub fn write_profile(&self, line: &mut [u8]) -> Result<usize> {
        let (plate, room, size) = (self.words.as_ptr(), line.as_mut_ptr(), line.len());
        written(|count| unsafe { raw::yendrufal_write_profile(plate, PLATE_WORDS, room, size, count, 1) })
    }

    /// The line `word` of an answer.
    #[rustfmt::skip]
    pub fn write_word(&self, answer: &Answer, line: &mut [u8]) -> Result<usize> {
        let (plate, room, size) = (self.words.as_ptr(), line.as_mut_ptr(), line.len());
        let Answer { word, metric, counts: Counts { additions, comparisons } } = *answer;
        written(|count| unsafe {
            raw::yendrufal_write_word(plate, PLATE_WORDS, word, metric, additions, comparisons, room, size, count, 1)
        })
    }
}

/// The level of one value, or of an erased one where there is none. Refusals 24, 25.
pub fn level(setting: Setting, value: Option<f32>) -> Result<i16> {
    let (Setting { step, top }, mut level) = (setting, 0);
    let erased = value.is_none() as u64;
    let number = unsafe { raw::yendrufal_level(step, top, value.unwrap_or(0.0), erased, &mut level, 1) };
    replied(number, 0, level)
}

/// The levels of a block of n values, those marked in `erased` (bit i for position i) erased, into a room of as many. Refusals 1, 24, 6, 25.
#[rustfmt::skip]
pub fn levels(n: u64, setting: Setting, values: &[f32], erased: u64, room: &mut [i16]) -> Result<()> {
    let (Setting { step, top }, mut place) = (setting, 0);
    let number = unsafe {
        raw::yendrufal_levels(n, step, top, values.as_ptr(), values.len(), erased, room.as_mut_ptr(), room.len(), &mut place, 1)
    };
    replied(number, place, ())
}

fn counted(counts: [u64; 2]) -> Counts {
    Counts { additions: counts[0], comparisons: counts[1] }
}

/// The bytes that a call says it has written.
fn written(call: impl FnOnce(&mut u64) -> u64) -> Result<usize> {
    let mut count = 0;
    let number = call(&mut count);
    replied(number, 0, count as usize)
}

/// The line `refused` of a refusal; of 10 and 17 to 20 the place is a line of the sheet, and `field` a field of it. Refusal 11.
pub fn write_refused(refusal: Refusal, field: u64, line: &mut [u8]) -> Result<usize> {
    let (Refusal { number, place }, room, size) = (refusal, line.as_mut_ptr(), line.len());
    written(|count| unsafe { raw::yendrufal_write_refused(number, place, field, room, size, count, 1) })
}

/// The line `end` with a count. Refusal 11.
pub fn write_end(count: u64, line: &mut [u8]) -> Result<usize> {
    let (room, size) = (line.as_mut_ptr(), line.len());
    written(|bytes| unsafe { raw::yendrufal_write_end(count, room, size, bytes, 1) })
}

/// The numbers of a tally of heard lines.
#[derive(Clone, Copy, Debug, Default, PartialEq, Eq)]
pub struct Tally {
    /// Lines decoded.
    pub decoded: u64,
    /// Lines refused.
    pub refused: u64,
    /// Lines repeated.
    pub repeated: u64,
    /// Lines out of turn.
    pub late: u64,
    /// Counters that are missing.
    pub missing: u64,
    /// Positions where the answer opposes its sample.
    pub opposing: u64,
    /// Zero samples.
    pub zeros: u64,
    /// What the metrics above 0 add to.
    pub above: u64,
    /// What the metrics below 0 add to, without their sign.
    pub below: u64,
}

/// The line `tally`. Refusal 11.
#[rustfmt::skip]
pub fn write_tally(tally: &Tally, line: &mut [u8]) -> Result<usize> {
    let Tally { decoded, refused, repeated, late, missing, opposing, zeros, above, below } = *tally;
    let (room, size) = (line.as_mut_ptr(), line.len());
    written(|bytes| unsafe {
        raw::yendrufal_write_tally(decoded, refused, repeated, late, missing, opposing, zeros, above, below, room, size, bytes, 1)
    })
}

/// The line `weight`: how many codewords have a weight. Refusal 11.
pub fn write_weight(weight: u64, count: u64, line: &mut [u8]) -> Result<usize> {
    let (room, size) = (line.as_mut_ptr(), line.len());
    written(|bytes| unsafe { raw::yendrufal_write_weight(weight, count, room, size, bytes, 1) })
}

/// The line `least`: the smallest weight above 0, or that there is none. Refusal 11.
pub fn write_least(weight: Option<u64>, line: &mut [u8]) -> Result<usize> {
    let (room, size) = (line.as_mut_ptr(), line.len());
    written(|bytes| match weight {
        Some(weight) => unsafe { raw::yendrufal_write_least(weight, room, size, bytes, 1) },
        None => unsafe { raw::yendrufal_write_no_least(room, size, bytes, 1) },
    })
}

/// The room that the listing of a sheet needs at most: [`LINE_MOST`] bytes for each line of the sheet and four more.
pub fn listing_room(sheet: &[u8]) -> usize {
    LINE_MOST * (sheet.iter().filter(|&&byte| byte == b'\n').count() + 4)
}

/// The whole listing of a sheet at the start of a room; its bytes. The rooms have to be enough for every plate, and a refused sheet
/// is a listing too. Refusals 8, 9, 11.
#[rustfmt::skip]
pub fn listing(sheet: &[u8], rooms: &mut Rooms, room: &mut [u8]) -> Result<usize> {
    written(|count| unsafe {
        raw::yendrufal_listing(sheet.as_ptr(), sheet.len(), rooms.metrics.as_mut_ptr(), rooms.metrics.len(),
            rooms.decisions.as_mut_ptr(), rooms.decisions.len(), room.as_mut_ptr(), room.len(), count, 1)
    })
}
