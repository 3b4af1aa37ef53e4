//! The library linked into this program: a call's runs are lent to it as they are.

use crate::call::{Call, Name};
use crate::yendrufal::raw::*;

/// A run as pointer and length, by the kind of its cells. An empty one is lent as NULL, which the header permits.
macro_rules! lent {
    ($run:expr, $cells:ident) => {{
        let cells = $run.$cells();
        (if cells.is_empty() { std::ptr::null_mut() } else { cells.as_mut_ptr() }, cells.len())
    }};
}

/// The library's reply to a call; the runs are changed in place.
pub fn answer(call: &mut Call) -> u64 {
    let n = call.numbers.clone();
    let r = &mut call.runs[..];
    match call.name {
        Name::Prepare => {
            let ((rows, a), (plate, b), (place, c)) =
                (lent!(r[0], words), lent!(r[1], words), lent!(r[2], words));
            unsafe { yendrufal_prepare(n[0], n[1], rows, a, n[2], plate, b, place, c) }
        }
        Name::PlateOfSheet => {
            let ((sheet, a), (plate, b)) = (lent!(r[0], bytes), lent!(r[1], words));
            let ((order, c), (place, d)) = (lent!(r[2], words), lent!(r[3], words));
            unsafe { yendrufal_plate_of_sheet(sheet, a, plate, b, order, c, place, d) }
        }
        Name::Branch | Name::Encode | Name::ReadBack => {
            let ((plate, a), (cell, b)) = (lent!(r[0], words), lent!(r[1], words));
            match call.name {
                Name::Branch => unsafe { yendrufal_branch(plate, a, n[0], n[1], n[2], cell, b) },
                Name::Encode => unsafe { yendrufal_encode(plate, a, n[0], cell, b) },
                _ => unsafe { yendrufal_read_back(plate, a, n[0], cell, b) },
            }
        }
        Name::Decode => decode(call),
        Name::DecodeBlocks => decode_blocks(call),
        Name::Metric => metric(call),
        Name::Word => word(call),
        Name::Firmness => firmness(call),
        Name::WhyNot => why_not(call),
        Name::WriteTally | Name::WriteWeight | Name::WriteLeast | Name::WriteNoLeast => write_plain(call),
        Name::WriteRefused | Name::WriteEnd => write_plain(call),
        Name::WritePlate | Name::WriteProfile | Name::WriteWord => write_of_plate(call),
        Name::Listing => listing(call),
        Name::WidestEntry | Name::Weights | Name::Level => of_numbers(call),
        Name::Levels => levels(call),
        Name::FirmnessAll => firmness_all(call),
        Name::ReadAlist => read_alist(call),
        Name::WriteAlist => write_alist(call),
        Name::Judge => judge(call),
    }
}

/// Lines that take no plate.
fn write_plain(call: &mut Call) -> u64 {
    let n = call.numbers.clone();
    let r = &mut call.runs[..];
    let ((line, a), (written, b)) = (lent!(r[0], bytes), lent!(r[1], words));
    match call.name {
        Name::WriteTally => unsafe {
            yendrufal_write_tally(n[0], n[1], n[2], n[3], n[4], n[5], n[6], n[7], n[8], line, a, written, b)
        },
        Name::WriteWeight => unsafe { yendrufal_write_weight(n[0], n[1], line, a, written, b) },
        Name::WriteLeast => unsafe { yendrufal_write_least(n[0], line, a, written, b) },
        Name::WriteNoLeast => unsafe { yendrufal_write_no_least(line, a, written, b) },
        Name::WriteRefused => unsafe { yendrufal_write_refused(n[0], n[1], n[2], line, a, written, b) },
        _ => unsafe { yendrufal_write_end(n[0], line, a, written, b) },
    }
}

fn decode(call: &mut Call) -> u64 {
    let r = &mut call.runs[..];
    let ((plate, a), (samples, b)) = (lent!(r[0], words), lent!(r[1], samples));
    let ((metrics, c), (decisions, d)) = (lent!(r[2], metrics), lent!(r[3], words));
    let ((word, e), (metric, f)) = (lent!(r[4], words), lent!(r[5], metrics));
    let ((counts, g), (place, h)) = (lent!(r[6], words), lent!(r[7], words));
    unsafe {
        yendrufal_decode(
            plate, a, samples, b, metrics, c, decisions, d, word, e, metric, f, counts, g, place, h,
        )
    }
}

fn decode_blocks(call: &mut Call) -> u64 {
    let r = &mut call.runs[..];
    let ((plate, a), (samples, b)) = (lent!(r[0], words), lent!(r[1], samples));
    let ((metrics, c), (decisions, d)) = (lent!(r[2], metrics), lent!(r[3], words));
    let ((words, e), (scores, f)) = (lent!(r[4], words), lent!(r[5], metrics));
    let ((counts, g), (place, h)) = (lent!(r[6], words), lent!(r[7], words));
    unsafe {
        yendrufal_decode_blocks(
            plate, a, samples, b, metrics, c, decisions, d, words, e, scores, f, counts, g, place, h,
        )
    }
}

fn metric(call: &mut Call) -> u64 {
    let r = &mut call.runs[..];
    let ((plate, a), (samples, b), (metrics, c)) =
        (lent!(r[0], words), lent!(r[1], samples), lent!(r[2], metrics));
    let ((metric, d), (counts, e), (place, f)) =
        (lent!(r[3], metrics), lent!(r[4], words), lent!(r[5], words));
    unsafe { yendrufal_metric(plate, a, samples, b, metrics, c, metric, d, counts, e, place, f) }
}

fn word(call: &mut Call) -> u64 {
    let r = &mut call.runs[..];
    let ((plate, a), (samples, b)) = (lent!(r[0], words), lent!(r[1], samples));
    let ((metrics, c), (decisions, d)) = (lent!(r[2], metrics), lent!(r[3], words));
    let ((word, e), (counts, f), (place, g)) = (lent!(r[4], words), lent!(r[5], words), lent!(r[6], words));
    unsafe { yendrufal_word(plate, a, samples, b, metrics, c, decisions, d, word, e, counts, f, place, g) }
}

fn firmness(call: &mut Call) -> u64 {
    let position = call.numbers[0];
    let r = &mut call.runs[..];
    let ((plate, a), (samples, b)) = (lent!(r[0], words), lent!(r[1], samples));
    let ((metrics, c), (decisions, d)) = (lent!(r[2], metrics), lent!(r[3], words));
    let ((fixed, e), (value, f), (place, g)) = (lent!(r[4], words), lent!(r[5], metrics), lent!(r[6], words));
    unsafe {
        yendrufal_firmness(
            plate, a, samples, b, position, metrics, c, decisions, d, fixed, e, value, f, place, g,
        )
    }
}

fn why_not(call: &mut Call) -> u64 {
    let word = call.numbers[0];
    let r = &mut call.runs[..];
    let ((plate, a), (samples, b)) = (lent!(r[0], words), lent!(r[1], samples));
    let ((metrics, c), (decisions, d)) = (lent!(r[2], metrics), lent!(r[3], words));
    let ((reason, e), (difference, f)) = (lent!(r[4], words), lent!(r[5], metrics));
    let (place, g) = lent!(r[6], words);
    unsafe {
        yendrufal_why_not(
            plate, a, samples, b, word, metrics, c, decisions, d, reason, e, difference, f, place, g,
        )
    }
}

fn write_of_plate(call: &mut Call) -> u64 {
    let n = call.numbers.clone();
    let r = &mut call.runs[..];
    let ((plate, a), (line, b), (written, c)) = (lent!(r[0], words), lent!(r[1], bytes), lent!(r[2], words));
    match call.name {
        Name::WritePlate => unsafe { yendrufal_write_plate(plate, a, line, b, written, c) },
        Name::WriteProfile => unsafe { yendrufal_write_profile(plate, a, line, b, written, c) },
        _ => unsafe { yendrufal_write_word(plate, a, n[0], n[1] as i32, n[2], n[3], line, b, written, c) },
    }
}

fn listing(call: &mut Call) -> u64 {
    let r = &mut call.runs[..];
    let ((sheet, a), (metrics, b)) = (lent!(r[0], bytes), lent!(r[1], metrics));
    let ((decisions, c), (listing, d), (written, e)) =
        (lent!(r[2], words), lent!(r[3], bytes), lent!(r[4], words));
    unsafe { yendrufal_listing(sheet, a, metrics, b, decisions, c, listing, d, written, e) }
}

/// The widest entry and the weights of a plate, and the level of one value.
fn of_numbers(call: &mut Call) -> u64 {
    let n = call.numbers.clone();
    let r = &mut call.runs[..];
    match call.name {
        Name::WidestEntry => {
            let ((plate, a), (widest, b)) = (lent!(r[0], words), lent!(r[1], words));
            unsafe { yendrufal_widest_entry(plate, a, widest, b) }
        }
        Name::Weights => {
            let ((plate, a), (counts, b)) = (lent!(r[0], words), lent!(r[1], words));
            let ((working, c), (least, d)) = (lent!(r[2], words), lent!(r[3], words));
            unsafe { yendrufal_weights(plate, a, counts, b, working, c, least, d) }
        }
        _ => {
            let (level, a) = lent!(r[0], samples);
            unsafe { yendrufal_level(float(n[0]), n[1], float(n[2]), n[3], level, a) }
        }
    }
}

/// The value whose bits these are.
fn float(bits: u64) -> f32 {
    f32::from_bits(bits as u32)
}

fn levels(call: &mut Call) -> u64 {
    let n = call.numbers.clone();
    let r = &mut call.runs[..];
    let ((values, a), (levels, b), (place, c)) =
        (lent!(r[0], values), lent!(r[1], samples), lent!(r[2], words));
    unsafe { yendrufal_levels(n[0], float(n[1]), n[2], values.cast(), a, n[3], levels, b, place, c) }
}

fn firmness_all(call: &mut Call) -> u64 {
    let r = &mut call.runs[..];
    let ((plate, a), (samples, b)) = (lent!(r[0], words), lent!(r[1], samples));
    let ((metrics, c), (decisions, d)) = (lent!(r[2], metrics), lent!(r[3], words));
    let ((fixed, e), (values, f), (place, g)) =
        (lent!(r[4], words), lent!(r[5], metrics), lent!(r[6], words));
    unsafe {
        yendrufal_firmness_all(plate, a, samples, b, metrics, c, decisions, d, fixed, e, values, f, place, g)
    }
}

fn read_alist(call: &mut Call) -> u64 {
    let r = &mut call.runs[..];
    let ((text, a), (sizes, b)) = (lent!(r[0], bytes), lent!(r[1], words));
    let ((rows, c), (place, d)) = (lent!(r[2], words), lent!(r[3], words));
    unsafe { yendrufal_read_alist(text, a, sizes, b, rows, c, place, d) }
}

fn write_alist(call: &mut Call) -> u64 {
    let n = call.numbers[0];
    let r = &mut call.runs[..];
    let ((rows, a), (room, b)) = (lent!(r[0], words), lent!(r[1], bytes));
    let ((written, c), (place, d)) = (lent!(r[2], words), lent!(r[3], words));
    unsafe { yendrufal_write_alist(n, rows, a, room, b, written, c, place, d) }
}

fn judge(call: &mut Call) -> u64 {
    let r = &mut call.runs[..];
    let ((plate, a), (text, b), (room, c)) = (lent!(r[0], words), lent!(r[1], bytes), lent!(r[2], words));
    let ((verdict, d), (states, e)) = (lent!(r[3], words), lent!(r[4], words));
    let ((branches, f), (place, g)) = (lent!(r[5], words), lent!(r[6], words));
    unsafe { yendrufal_judge(plate, a, text, b, room, c, verdict, d, states, e, branches, f, place, g) }
}
