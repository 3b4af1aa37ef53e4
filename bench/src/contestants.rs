//! The decoders that are timed, under one shape.

use crate::yendrufal::raw as library;
use crate::{sections, steps};

extern "C" {
    fn c_straight(p: *const u64, s: *const i16, m: *mut i32, d: *mut u64, word: *mut u64, metric: *mut i32);
    fn c_tested(
        p: *const u64,
        s: *const i16,
        m: *mut i32,
        d: *mut u64,
        word: *mut u64,
        metric: *mut i32,
    ) -> i32;
    fn c_block(p: *const u64, s: *const i16, m: *mut i32, d: *mut u64, word: *mut u64, metric: *mut i32);
}

/// A decoder: plate, samples, metric room, decision room; word and metric.
pub type Decoder = fn(&[u64], &[i16], &mut [i32], &mut [u64]) -> (u64, i32);

pub const DECODERS: [(&str, Decoder); 6] = [
    ("library", by_library),
    ("C -O3, straightforward", in_c_straight),
    ("C -O3, with the tests", in_c_tested),
    ("C -O3, blocks", in_c_block),
    ("Rust -O, straightforward", |p, s, m, d| sections::decode(steps::straight, p, s, m, d)),
    ("Rust -O, blocks", |p, s, m, d| sections::decode(steps::block, p, s, m, d)),
];

pub fn by_library(plate: &[u64], samples: &[i16], metrics: &mut [i32], decisions: &mut [u64]) -> (u64, i32) {
    let (reply, word, metric) = library_replies(plate, samples, metrics, decisions);
    assert_eq!(reply, 0);
    (word, metric)
}

fn library_replies(
    plate: &[u64],
    samples: &[i16],
    metrics: &mut [i32],
    decisions: &mut [u64],
) -> (u64, u64, i32) {
    let (mut word, mut metric, mut counts, mut place) = (0, 0, [0; 2], 0);
    let (p, s) = (plate.as_ptr(), samples.as_ptr());
    let (m, d) = (metrics.as_mut_ptr(), decisions.as_mut_ptr());
    let (ml, dl) = (metrics.len(), decisions.len());
    let c = counts.as_mut_ptr();
    let reply = unsafe {
        library::yendrufal_decode(
            p,
            plate.len(),
            s,
            samples.len(),
            m,
            ml,
            d,
            dl,
            &mut word,
            1,
            &mut metric,
            1,
            c,
            2,
            &mut place,
            1,
        )
    };
    (reply, word, metric)
}

/// All blocks of a run of samples in one call of the library; the words and metrics go where they are lent.
#[rustfmt::skip]
pub fn batch_by_library(
    plate: &[u64],
    samples: &[i16],
    rooms: (&mut [i32], &mut [u64]),
    answers: (&mut [u64], &mut [i32]),
) {
    let ((metrics, decisions), (words, scores)) = (rooms, answers);
    let (mut counts, mut place) = ([0; 2], 0);
    let reply = unsafe {
        library::yendrufal_decode_blocks(plate.as_ptr(), plate.len(), samples.as_ptr(), samples.len(),
            metrics.as_mut_ptr(), metrics.len(), decisions.as_mut_ptr(), decisions.len(), words.as_mut_ptr(), words.len(),
            scores.as_mut_ptr(), scores.len(), counts.as_mut_ptr(), 2, &mut place, 1)
    };
    assert_eq!(reply, 0);
}

/// The library's test of a plate: a block with a sample too many is refused once the plate has passed.
pub fn plate_test(plate: &[u64]) {
    let block = [0; 65];
    assert_eq!(library_replies(plate, &block[..=plate[0] as usize], &mut [], &mut []).0, 6);
}

/// Whether the library and the C with the tests say the same of a plate, good or damaged.
pub fn same_verdict(plate: &[u64], samples: &[i16], metrics: &mut [i32], decisions: &mut [u64]) -> bool {
    let (mut word, mut metric) = (0, 0);
    let (m, d) = (metrics.as_mut_ptr(), decisions.as_mut_ptr());
    let reply = unsafe { c_tested(plate.as_ptr(), samples.as_ptr(), m, d, &mut word, &mut metric) };
    (library_replies(plate, samples, metrics, decisions).0 == 5) == (reply == 5)
}

fn in_c_straight(plate: &[u64], samples: &[i16], metrics: &mut [i32], decisions: &mut [u64]) -> (u64, i32) {
    let (mut word, mut metric) = (0, 0);
    let (m, d) = (metrics.as_mut_ptr(), decisions.as_mut_ptr());
    unsafe { c_straight(plate.as_ptr(), samples.as_ptr(), m, d, &mut word, &mut metric) };
    (word, metric)
}

fn in_c_tested(plate: &[u64], samples: &[i16], metrics: &mut [i32], decisions: &mut [u64]) -> (u64, i32) {
    let (mut word, mut metric) = (0, 0);
    let (m, d) = (metrics.as_mut_ptr(), decisions.as_mut_ptr());
    let reply = unsafe { c_tested(plate.as_ptr(), samples.as_ptr(), m, d, &mut word, &mut metric) };
    assert_eq!(reply, 0);
    (word, metric)
}

fn in_c_block(plate: &[u64], samples: &[i16], metrics: &mut [i32], decisions: &mut [u64]) -> (u64, i32) {
    let (mut word, mut metric) = (0, 0);
    let (m, d) = (metrics.as_mut_ptr(), decisions.as_mut_ptr());
    unsafe { c_block(plate.as_ptr(), samples.as_ptr(), m, d, &mut word, &mut metric) };
    (word, metric)
}

/// Every word in turn, each one row away from the one before it.
pub fn exhaustive(plate: &[u64], samples: &[i16]) -> (u64, i32) {
    let metric = |word: u64| {
        let signed = |(i, &y): (usize, &i16)| if word >> i & 1 == 0 { i32::from(y) } else { -i32::from(y) };
        samples.iter().enumerate().map(signed).sum::<i32>()
    };
    let first = plate[sections::MASK];
    let (mut word, mut best) = (first, (first, metric(first)));
    for step in 1u64..1 << plate[1] {
        word ^= plate[2 + step.trailing_zeros() as usize];
        let (found, differs) = (metric(word), word ^ best.0);
        if found > best.1 || found == best.1 && word >> differs.trailing_zeros() & 1 == 0 {
            best = (word, found);
        }
    }
    best
}
