//! Sheets: the grammar with its refusals in the paper's order, and the whole listing. `last` turns mask, rows, samples and printed words.

use crate::call::Run;
use crate::decoding;
use crate::listing::{end_line, plate_line, profile_line, refused_line, tally_line, word_line};
use crate::plate::{prepare_masked, refuse, Kind, Plate, Refusal, PLATE_WORDS};
use crate::tally::{self, Heard};

pub const SHEET_MOST: usize = 32_768;
const SAMPLE_DIGITS: usize = 4;
const LENGTH_DIGITS: usize = 3;
const COUNTER_DIGITS: usize = 5;

/// The words that a line may begin with: the first line, the second, the lines up to the first block or heard line, those after a block,
/// those after a heard line, and those after end.
const COVER: &[&str] = &["cover"];
const SECOND: &[&str] = &["mask", "row", "block", "heard", "end"];
const BODY: &[&str] = &["row", "block", "heard", "end"];
const BLOCKS: &[&str] = &["block", "end"];
const HEARD: &[&str] = &["heard", "end"];
const NOTHING: &[&str] = &[];

struct Cover {
    n: usize,
    kind: Kind,
    first: bool,
}

/// A block line, or a heard line with its counter; samples by position.
struct Block {
    counter: Option<i64>,
    samples: Vec<i16>,
}

pub struct Sheet {
    first: bool,
    pub kind: Kind,
    pub rows: Vec<u64>,
    pub plate: Plate,
    blocks: Vec<Block>,
}

/// A number of one to `digits` digits without a leading zero.
pub fn number(field: &str, digits: usize) -> Option<i32> {
    let form = (1..=digits).contains(&field.len()) && field.bytes().all(|b| b.is_ascii_digit());
    let plain = field == "0" || !field.starts_with('0');
    if form && plain {
        field.parse().ok()
    } else {
        None
    }
}

fn sample(field: &str) -> Option<i16> {
    let size = match field.strip_prefix('-') {
        Some(size) => number(size, SAMPLE_DIGITS).filter(|&y| y != 0).map(|y| -y),
        None => number(field, SAMPLE_DIGITS),
    };
    size.map(|y| y as i16)
}

fn counter(field: &str) -> Option<i64> {
    number(field, COUNTER_DIGITS).filter(|&c| c < 65_536).map(i64::from)
}

/// What is wrong with a line: the number of its refusal, and the field, from 1. In their order the least comes first.
type Fault = (u64, usize);

/// Whether a field is of its form, and the number that says it is not. Fields that no line of this word has are of every form.
fn form(word: &str, at: usize, field: &str, n: usize) -> Option<u64> {
    let (number, good) = match (word, at) {
        ("cover", 2) => (19, number(field, LENGTH_DIGITS).is_some()),
        ("cover", 3) => (19, ["G", "H"].contains(&field)),
        ("cover", 4) => (19, ["first", "last"].contains(&field)),
        ("mask" | "row", 2) => (20, field.len() == n && field.bytes().all(|b| b == b'0' || b == b'1')),
        ("heard", 2) => (19, counter(field).is_some()),
        ("block", 2..) | ("heard", 3..) => (19, sample(field).is_some()),
        _ => (0, true),
    };
    (!good).then_some(number)
}

/// All that is wrong with an ended line, by its fields, where it may begin with the words in turn.
fn faults(fields: &[&str], turn: &[&str], n: usize) -> Vec<Fault> {
    let word = fields[0];
    let mut found = Vec::new();
    if !turn.contains(&word) {
        found.push((17, 1));
    }
    let due = match word {
        "cover" => 4,
        "mask" | "row" => 2,
        "end" => 1,
        "heard" => fields.len().max(2),
        _ => fields.len(),
    };
    if fields.len() != due {
        found.push((18, fields.len().min(due) + 1));
    }
    let forms = fields
        .iter()
        .enumerate()
        .filter_map(|(i, field)| form(word, i + 1, field, n).map(|number| (number, i + 1)));
    found.extend(forms);
    found
}

/// The fields of a line, counted from 1, or its first fault. A line that is missing or not ended is not among the lines.
fn fields<'a>(lines: &[&'a str], line: usize, turn: &[&str], n: usize) -> Result<Vec<&'a str>, Refusal> {
    let place = line as u64;
    let text = lines.get(line - 1).ok_or(Refusal { number: 10, place, field: 0 })?;
    let fields: Vec<&str> = text.split('\t').collect();
    match faults(&fields, turn, n).into_iter().min() {
        Some((number, field)) => Err(Refusal { number, place, field: field as u64 }),
        None => Ok(fields),
    }
}

fn cover(fields: &[&str]) -> Cover {
    let n = number(fields[1], LENGTH_DIGITS).unwrap() as usize;
    Cover { n, kind: if fields[2] == "G" { Kind::G } else { Kind::H }, first: fields[3] == "first" }
}

/// The word of a row or mask: the leftmost character is position 0 under `first`, position n-1 under `last`.
fn row(characters: &str, cover: &Cover) -> u64 {
    let position = |i| if cover.first { i } else { cover.n - 1 - i };
    let ones = characters.bytes().enumerate().filter(|(_, b)| *b == b'1');
    ones.map(|(i, _)| 1u64 << position(i)).sum()
}

/// Under `last` the sample listed first is that of position n-1, so the list is read from its far end. (Where it has another
/// number of samples than n the block is refused for that.)
fn by_position(listed: &[&str], cover: &Cover) -> Vec<i16> {
    let samples = listed.iter().map(|field| sample(field).unwrap());
    if cover.first {
        samples.collect()
    } else {
        samples.rev().collect()
    }
}

/// What the lines between cover and end say; a sheet without a mask line has the mask 0.
#[derive(Default)]
struct Body {
    mask: u64,
    rows: Vec<u64>,
    blocks: Vec<Block>,
}

/// The lines between cover and end taken in, or the refusal of the first that is bad.
fn body(lines: &[&str], unended: bool, cover: &Cover) -> Result<Body, Refusal> {
    let Body { mut mask, mut rows, mut blocks } = Body::default();
    let mut line = 2;
    loop {
        let turn = match blocks.last() {
            None if line == 2 => SECOND,
            None => BODY,
            Some(Block { counter: None, .. }) => BLOCKS,
            Some(_) => HEARD,
        };
        let found = fields(lines, line, turn, cover.n)?;
        line += 1;
        match found[0] {
            "mask" => mask = row(found[1], cover),
            "row" => rows.push(row(found[1], cover)),
            "block" => blocks.push(Block { counter: None, samples: by_position(&found[1..], cover) }),
            "heard" => {
                blocks.push(Block { counter: counter(found[1]), samples: by_position(&found[2..], cover) })
            }
            _ => break,
        }
    }
    if lines.len() >= line || unended {
        fields(lines, line, NOTHING, cover.n)?;
    }
    Ok(Body { mask, rows, blocks })
}

pub fn read(bytes: &[u8]) -> Result<Sheet, Refusal> {
    if bytes.len() > SHEET_MOST {
        return refuse(15, 0);
    }
    // One character for each byte, so that bytes which are no text are merely characters of no form.
    let text: String = bytes.iter().map(|&b| char::from(b)).collect();
    let mut lines: Vec<&str> = text.split('\n').collect();
    let unended = lines.pop() != Some("");
    let cover = cover(&fields(&lines, 1, COVER, 0)?);
    if cover.n == 0 || cover.n > 64 {
        return refuse(1, 0);
    }
    let Body { mask, rows, blocks } = body(&lines, unended, &cover)?;
    let plate = prepare_masked(cover.n as u64, cover.kind, &rows, mask)?;
    Ok(Sheet { first: cover.first, kind: cover.kind, rows, plate, blocks })
}

/// The model's reply to the call for a sheet's plate: the plate, the order, and place and field of a refusal.
pub fn answer_plate(runs: &mut [Run]) -> u64 {
    let [sheet, plate, order, place] = runs else { unreachable!("plate_of_sheet has four runs") };
    let (reply, place_and_field) = match read(sheet.bytes()) {
        Ok(found) => {
            plate.words()[..PLATE_WORDS].copy_from_slice(&found.plate.flat());
            order.words()[0] = u64::from(!found.first);
            (0, [0, 0])
        }
        Err(refusal) => (refusal.number, [refusal.place, refusal.field]),
    };
    place.words()[..2].copy_from_slice(&place_and_field);
    reply
}

/// The word as it is handed to the listing line, which prints position 0 at the left: under `last` position n-1 is to stand there.
fn to_print(word: u64, sheet: &Sheet) -> u64 {
    let n = sheet.plate.n;
    if sheet.first {
        word
    } else {
        (0..n).filter(|i| word >> i & 1 == 1).map(|i| 1u64 << (n - 1 - i)).sum()
    }
}

/// What decoding replies to a block, given by position.
fn reply(sheet: &Sheet, samples: &[i16]) -> Result<decoding::Decoded, Refusal> {
    decoding::refused(&sheet.plate, samples, usize::MAX, usize::MAX)?;
    Ok(decoding::decode(&sheet.plate, samples))
}

/// The whole listing of a sheet, the plate if some block was decoded with it, and for how many lines its room is sized: a repeat, which
/// prints none, counts as one.
pub fn listing(bytes: &[u8]) -> (String, Option<Plate>, usize) {
    let sheet = match read(bytes) {
        Ok(sheet) => sheet,
        Err(refusal) => return (refused_line(refusal), None, 1),
    };
    let replies: Vec<_> = sheet.blocks.iter().map(|block| reply(&sheet, &block.samples)).collect();
    let of_heard = |(block, reply)| {
        let Block { counter, samples }: &Block = block;
        let reply: &Result<decoding::Decoded, Refusal> = reply;
        counter.map(|counter| Heard {
            counter,
            samples,
            answer: reply.as_ref().ok().map(|found| (found.word, found.metric)),
        })
    };
    let heard: Vec<Heard> = sheet.blocks.iter().zip(&replies).filter_map(of_heard).collect();
    let classes = tally::classes(&heard);
    let mut text = plate_line(&sheet.plate) + &profile_line(&sheet.plate);
    let mut decoded = false;
    for (i, reply) in replies.into_iter().enumerate() {
        decoded |= reply.is_ok();
        match reply {
            Err(refusal) => text += &refused_line(refusal),
            Ok(_) if classes.get(i) == Some(&tally::Class::Repeated) => {}
            Ok(found) => {
                text += &word_line(
                    &sheet.plate,
                    to_print(found.word, &sheet),
                    found.metric,
                    found.additions,
                    found.comparisons,
                )
            }
        }
    }
    let mut lines = sheet.blocks.len() + 3;
    if !heard.is_empty() {
        text += &tally_line(&tally::numbers(&heard, &classes));
        lines += 1;
    }
    text += &end_line(sheet.blocks.len() as u64);
    (text, decoded.then_some(sheet.plate), lines)
}
