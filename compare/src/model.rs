//! The model behind the C interface: each call answered from the paper's rules, with every lent cell.

use crate::alist;
use crate::alone;
use crate::asking;
use crate::batch;
use crate::call::{Call, Name, Run};
use crate::coding::{encode, read_back};
use crate::decoding;
use crate::firmness;
use crate::judge;
use crate::level;
use crate::listing::{end_line, numbers_line, plate_line, profile_line, refused_line, word_line};
use crate::plate::{prepare_masked, Kind, Plate, Refusal, PLATE_WORDS};
use crate::shapes::misshapen;
use crate::sheet;
use crate::trellis::branch;
use crate::weights;
use std::rc::Rc;

pub const DONE: u64 = 0;
pub const NO_BRANCH: u64 = 100;
pub const SHAPE: u64 = 101;
/// Enough bytes for every listing line.
pub const LINE_MOST: usize = 256;
pub const METRICS_MOST: usize = 8192;
pub const DECISIONS_MOST: usize = 4096;

const NO_PLATE: Refusal = Refusal { number: 5, place: 0, field: 0 };
const LINE_ROOM: Refusal = Refusal { number: 11, place: 0, field: 0 };

/// Answers calls; keeps what it found out about the last run of words given as a plate.
pub struct Model {
    last: Vec<u64>,
    known: Option<Rc<Plate>>,
}

/// The reply of a call that has one cell for its answer and no cell for a place.
fn reply_into(answer: Result<u64, Refusal>, cell: &mut [u64]) -> u64 {
    match answer {
        Ok(value) => {
            cell[0] = value;
            DONE
        }
        Err(refusal) => refusal.number,
    }
}

/// The reply of a refused call that has a cell for the place.
pub fn refused_at(refusal: Refusal, place: &mut Run) -> u64 {
    place.words()[0] = refusal.place;
    refusal.number
}

/// A line put at the start of its room, or refusal 11.
fn put_line(line: Result<String, Refusal>, room: &mut [u8], written: &mut [u64]) -> u64 {
    let put = line.and_then(|text| {
        let start = room.get_mut(..text.len()).ok_or(LINE_ROOM)?;
        start.copy_from_slice(text.as_bytes());
        Ok(text.len() as u64)
    });
    reply_into(put, written)
}

impl Model {
    pub fn new() -> Model {
        Model { last: Vec::new(), known: None }
    }

    /// The plate that a run of words is, or refusal 5.
    pub fn plate(&mut self, words: &[u64]) -> Result<Rc<Plate>, Refusal> {
        let words = &words[..PLATE_WORDS];
        if self.last != words {
            self.last = words.to_vec();
            self.known = Plate::from_flat(words).map(Rc::new);
        }
        self.known.clone().ok_or(NO_PLATE)
    }

    /// The reply to a call; its lent runs are changed as the library has to change them.
    pub fn answer(&mut self, call: &mut Call) -> u64 {
        if misshapen(call) {
            return SHAPE;
        }
        if let Some(reply) = self.answer_request(call) {
            return reply;
        }
        let numbers = call.numbers.clone();
        match (call.name, &mut call.runs[..]) {
            (Name::Prepare, [rows, plate, place]) => answer_prepare(&numbers, rows, plate, place),
            (Name::PlateOfSheet, runs) => sheet::answer_plate(runs),
            (Name::Branch, [plate, next]) => self.answer_branch(&numbers, plate, next),
            (Name::Encode, [plate, word]) => {
                reply_into(self.plate(plate.words()).and_then(|p| encode(&p, numbers[0])), word.words())
            }
            (Name::ReadBack, [plate, word]) => {
                reply_into(self.plate(plate.words()).and_then(|p| read_back(&p, numbers[0])), word.words())
            }
            (Name::Decode, runs) => self.answer_decode(runs),
            (Name::DecodeBlocks, runs) => batch::answer(self, runs),
            (Name::Metric, runs) => self.answer_metric(runs),
            (Name::Word, runs) => self.answer_word(runs),
            (Name::Firmness, runs) => firmness::answer_one(self, numbers[0], runs),
            (Name::WhyNot, runs) => self.answer_why_not(numbers[0], runs),
            (Name::WriteRefused, [line, written]) => {
                let refusal = Refusal { number: numbers[0], place: numbers[1], field: numbers[2] };
                put_line(Ok(refused_line(refusal)), line.bytes(), written.words())
            }
            (Name::WriteEnd, [line, written]) => {
                put_line(Ok(end_line(numbers[0])), line.bytes(), written.words())
            }
            (Name::Listing, runs) => answer_listing(runs),
            (name, [line, written]) => {
                put_line(Ok(numbers_line(name, &numbers)), line.bytes(), written.words())
            }
            (name, [plate, line, written]) => {
                let text = self.plate(plate.words()).map(|p| line_of_plate(name, &p, &numbers));
                put_line(text, line.bytes(), written.words())
            }
            _ => unreachable!("a call with other runs than its own"),
        }
    }

    /// The reply to a call of a later request, of those that have a file of their own.
    fn answer_request(&mut self, call: &mut Call) -> Option<u64> {
        let (numbers, runs) = (&call.numbers, &mut call.runs[..]);
        Some(match call.name {
            Name::FirmnessAll => firmness::answer_all(self, runs),
            Name::Weights => weights::answer(self, runs),
            Name::Level => level::answer_one(numbers, runs),
            Name::Levels => level::answer_block(numbers, runs),
            Name::ReadAlist => alist::answer_read(runs),
            Name::WriteAlist => alist::answer_write(numbers, runs),
            Name::Judge => judge::answer(self, runs),
            Name::WidestEntry => {
                let widest = self.plate(runs[0].words()).map(|plate| plate.widest() as u64);
                reply_into(widest, runs[1].words())
            }
            _ => return None,
        })
    }

    fn answer_branch(&mut self, numbers: &[u64], plate: &mut Run, next: &mut Run) -> u64 {
        let found = self.plate(plate.words()).and_then(|p| branch(&p, numbers[0], numbers[1], numbers[2]));
        match found {
            Ok(None) => NO_BRANCH,
            found => reply_into(found.map(Option::unwrap), next.words()),
        }
    }

    fn answer_decode(&mut self, runs: &mut [Run]) -> u64 {
        let [plate, samples, metrics, decisions, word, metric, counts, place] = runs else {
            unreachable!("decode has eight runs")
        };
        let samples = samples.samples();
        let accepted = self.plate(plate.words()).and_then(|plate| {
            decoding::refused(&plate, samples, metrics.metrics().len(), decisions.words().len())?;
            Ok(plate)
        });
        let plate = match accepted {
            Ok(plate) => plate,
            Err(refusal) => return refused_at(refusal, place),
        };
        let found = decoding::decode(&plate, samples);
        clear_rooms(&plate, metrics.metrics(), decisions.words());
        word.words()[0] = found.word;
        metric.metrics()[0] = found.metric;
        counts.words()[..2].copy_from_slice(&[found.additions, found.comparisons]);
        place.words()[0] = 0;
        DONE
    }
}

impl Model {
    fn answer_metric(&mut self, runs: &mut [Run]) -> u64 {
        let [plate, samples, metrics, metric, counts, place] = runs else {
            unreachable!("metric has six runs")
        };
        let samples = samples.samples();
        let accepted = self.plate(plate.words()).and_then(|plate| {
            decoding::bad_samples(&plate, samples)?;
            decoding::short_metrics(&plate, metrics.metrics().len())?;
            Ok(plate)
        });
        let plate = match accepted {
            Ok(plate) => plate,
            Err(refusal) => return refused_at(refusal, place),
        };
        metrics.metrics()[..plate.metrics_needed()].fill(0);
        metric.metrics()[0] = alone::best_metric(&plate, samples);
        counts.words()[..2].copy_from_slice(&<[u64; 2]>::from(decoding::counts(&plate)));
        place.words()[0] = 0;
        DONE
    }

    fn answer_word(&mut self, runs: &mut [Run]) -> u64 {
        let [plate, samples, metrics, decisions, word, counts, place] = runs else {
            unreachable!("word has seven runs")
        };
        let samples = samples.samples();
        let accepted = self.plate(plate.words()).and_then(|plate| {
            decoding::refused(&plate, samples, metrics.metrics().len(), decisions.words().len())?;
            Ok(plate)
        });
        let plate = match accepted {
            Ok(plate) => plate,
            Err(refusal) => return refused_at(refusal, place),
        };
        clear_rooms(&plate, metrics.metrics(), decisions.words());
        word.words()[0] = decoding::decode(&plate, samples).word;
        counts.words()[..2].copy_from_slice(&<[u64; 2]>::from(decoding::counts(&plate)));
        place.words()[0] = 0;
        DONE
    }

    fn answer_why_not(&mut self, word: u64, runs: &mut [Run]) -> u64 {
        let [plate, samples, metrics, decisions, reason, difference, place] = runs else {
            unreachable!("why_not has seven runs")
        };
        let samples = samples.samples();
        let accepted = self.plate(plate.words()).and_then(|plate| {
            decoding::refused(&plate, samples, metrics.metrics().len(), decisions.words().len())?;
            Ok(plate)
        });
        let plate = match accepted {
            Ok(plate) => plate,
            Err(refusal) => return refused_at(refusal, place),
        };
        clear_rooms(&plate, metrics.metrics(), decisions.words());
        let (told, apart) = asking::cells(asking::why_not(&plate, samples, word));
        reason.words()[..2].copy_from_slice(&told);
        difference.metrics()[0] = apart;
        place.words()[0] = 0;
        DONE
    }
}

fn answer_prepare(numbers: &[u64], rows: &mut Run, plate: &mut Run, place: &mut Run) -> u64 {
    let kind = if numbers[1] == 0 { Kind::G } else { Kind::H };
    match prepare_masked(numbers[0], kind, rows.words(), numbers[2]) {
        Ok(found) => {
            plate.words()[..PLATE_WORDS].copy_from_slice(&found.flat());
            place.words()[0] = 0;
            DONE
        }
        Err(refusal) => refused_at(refusal, place),
    }
}

/// After decoding and judging, the needed part of both rooms is zero.
pub fn clear_rooms(plate: &Plate, metrics: &mut [i32], decisions: &mut [u64]) {
    metrics[..plate.metrics_needed()].fill(0);
    decisions[..plate.decisions_needed()].fill(0);
}

fn line_of_plate(name: Name, plate: &Plate, numbers: &[u64]) -> String {
    match name {
        Name::WritePlate => plate_line(plate),
        Name::WriteProfile => profile_line(plate),
        Name::WriteWord => word_line(plate, numbers[0], numbers[1] as i32, numbers[2], numbers[3]),
        _ => unreachable!("no line of a plate"),
    }
}

/// A whole listing: its room has the most that a line may have for each line.
fn answer_listing(runs: &mut [Run]) -> u64 {
    let [sheet, metrics, decisions, listing, written] = runs else { unreachable!("listing has five runs") };
    let (text, decoded_with, lines) = sheet::listing(sheet.bytes());
    if metrics.metrics().len() < METRICS_MOST {
        return 8;
    }
    if decisions.words().len() < DECISIONS_MOST {
        return 9;
    }
    if listing.bytes().len() < LINE_MOST * lines {
        return 11;
    }
    if let Some(plate) = decoded_with {
        clear_rooms(&plate, metrics.metrics(), decisions.words());
    }
    put_line(Ok(text), listing.bytes(), written.words())
}
