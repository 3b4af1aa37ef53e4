//! The levels of single-precision samples, by trying each level from the top down in exact arithmetic.

use crate::asked::Rooms;
use crate::call::{Call, Name, Run};
use crate::floats::{meaning, Float, Size};
use crate::model::{refused_at, DONE};
use crate::plate::{refuse, Refusal};
use crate::words::bit;

pub const TOP_MOST: u64 = 127;

/// A step that is permitted, as its size, and a top level.
#[derive(Clone, Copy)]
pub struct Setting {
    step: Size,
    top: u64,
}

/// Refusal 24, or the setting that a step's bits and a top level are.
pub fn setting(step: u32, top: u64) -> Result<Setting, Refusal> {
    let permitted = match meaning(step) {
        Float::Is { negative: false, size } => {
            let in_range = (1..=TOP_MOST).contains(&top);
            in_range && size.is_finite() && !size.is_zero() && size.times(top).is_finite()
        }
        _ => false,
    };
    match meaning(step) {
        Float::Is { size, .. } if permitted => Ok(Setting { step: size, top }),
        _ => refuse(24, 0),
    }
}

/// The level of a value's bits; none where it is not a number.
pub fn level(setting: Setting, value: u32) -> Option<i16> {
    let Float::Is { negative, size } = meaning(value) else { return None };
    let reached = |j: &u64| setting.step.times(*j).at_most(size);
    let level = (0..=setting.top).rev().find(reached).expect("zero is at most every size") as i16;
    Some(if negative { -level } else { level })
}

/// The levels of a block, or the place of refusal 25: the first position that is heard and has no number.
fn levels(setting: Setting, values: &[u32], erased: u64) -> Result<Vec<i16>, Refusal> {
    let sample =
        |(i, &value): (usize, &u32)| if bit(erased, i) == 1 { Some(0) } else { level(setting, value) };
    let found: Vec<Option<i16>> = values.iter().enumerate().map(sample).collect();
    match found.iter().position(Option::is_none) {
        Some(place) => refuse(25, place),
        None => Ok(found.into_iter().flatten().collect()),
    }
}

/// A single sample: 24, 25.
pub fn answer_one(numbers: &[u64], runs: &mut [Run]) -> u64 {
    let (step, top, value, erased) = (numbers[0] as u32, numbers[1], numbers[2] as u32, numbers[3] != 0);
    let found = setting(step, top).and_then(|setting| {
        let heard = if erased { Some(0) } else { level(setting, value) };
        heard.map_or(refuse(25, 0), Ok)
    });
    match found {
        Ok(level) => {
            runs[0].samples()[0] = level;
            DONE
        }
        Err(refusal) => refusal.number,
    }
}

/// A block: 1, 24, 6, 25.
pub fn answer_block(numbers: &[u64], runs: &mut [Run]) -> u64 {
    let [values, room, place] = runs else { unreachable!("levels have three runs") };
    let (n, step, top, erased) = (numbers[0], numbers[1] as u32, numbers[2], numbers[3]);
    let found = if (1..=64).contains(&n) { setting(step, top) } else { refuse(1, 0) };
    let found = found.and_then(|setting| {
        let lengths = [values.length() as u64, room.length() as u64];
        if lengths != [n, n] {
            return refuse(6, 0);
        }
        levels(setting, values.values(), erased)
    });
    match found {
        Ok(levels) => {
            room.samples().copy_from_slice(&levels);
            place.words()[0] = 0;
            DONE
        }
        Err(refusal) => refused_at(refusal, place),
    }
}

/// The call for a single sample, its step and value as their bits.
pub fn asked_one(step: u32, top: u64, value: u32, erased: u64, rooms: Rooms) -> Call {
    let numbers = vec![u64::from(step), top, u64::from(value), erased];
    Call { name: Name::Level, numbers, runs: vec![Run::room_samples("level", rooms.single)] }
}

/// The call for a block: n, the step's bits and the top level, values as their bits, the erased positions, and how many levels are lent.
pub fn asked(n: u64, setting: (u32, u64), values: &[u32], erased: u64, levels: usize, rooms: Rooms) -> Call {
    let runs = vec![
        Run::of_values("values", values),
        Run::room_samples("levels", levels),
        Run::room_words("place", rooms.place),
    ];
    Call { name: Name::Levels, numbers: vec![n, u64::from(setting.0), setting.1, erased], runs }
}
