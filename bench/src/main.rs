//! Times the library against decoders in C and Rust and against exhaustive search: the same plates and
//! samples, one after the other in one run. README.md beside this folder says how to build and run it.

mod codes;
mod contestants;
#[cfg(liquid)]
mod liquid;
mod sections;
mod steps;
mod timing;
#[allow(dead_code)]
#[path = "../../include/yendrufal.rs"]
mod yendrufal;

use codes::{codes, Code};
use contestants::{batch_by_library, by_library, exhaustive, plate_test, same_verdict, DECODERS};
use std::hint::black_box;
use timing::{best, clock};
use yendrufal::raw as library;

const ROUNDS: usize = 30;
const BLOCKS: usize = 16;
const LARGEST: u64 = 2047; // the largest permitted sample
const SEARCHED: u64 = 16; // the greatest k for which all codewords are searched

/// The library's plate of a code with a mask, 0 for none.
fn prepare(code: &Code, mask: u64) -> Vec<u64> {
    let (mut plate, mut place) = (vec![0; 132], 0);
    let (n, rows, count) = (code.n as u64, code.rows.as_ptr(), code.rows.len());
    let reply = unsafe {
        library::yendrufal_prepare(n, 0, rows, count, mask, plate.as_mut_ptr(), plate.len(), &mut place, 1)
    };
    assert_eq!(reply, 0);
    plate
}

/// Blocks of samples below a size, the same in every run.
fn blocks(n: usize, count: usize, size: u64) -> Vec<Vec<i16>> {
    let mut state = 88_172_645_463_325_252u64;
    let mut sample = |_| {
        state ^= state << 13;
        state ^= state >> 7;
        state ^= state << 17;
        (state % (2 * size + 1)) as i16 - size as i16
    };
    (0..count).map(|_| (0..n).map(&mut sample).collect()).collect()
}

/// All decoders must give the same answers, ties included, before any is timed.
fn agree(plate: &[u64], n: usize) {
    let (metrics, decisions) = (&mut vec![0; 8192], &mut vec![0; 4096]);
    for block in blocks(n, 8, LARGEST).iter().chain(&blocks(n, 8, 1)) {
        let first = by_library(plate, block, metrics, decisions);
        for (name, decoder) in DECODERS {
            assert_eq!(decoder(plate, block, metrics, decisions), first, "{name}");
        }
        assert!(plate[1] > 12 || exhaustive(plate, block) == first);
    }
    let block = vec![1; n];
    for place in 0..plate.len() * 64 {
        let mut damaged = plate.to_vec();
        damaged[place / 64] ^= 1 << (place % 64);
        assert!(damaged[0] != plate[0] || same_verdict(&damaged, &block, metrics, decisions), "bit {place}");
    }
}

/// The branches of a plate's trellis.
fn branches(plate: &[u64]) -> u64 {
    let rows = &plate[2..2 + plate[1] as usize];
    let begins = |t| rows.iter().any(|row| u64::from(row.trailing_zeros()) == t);
    (0..plate[0]).map(|t| 1 << (plate[66 + t as usize] + u64::from(begins(t)))).sum()
}

fn row(name: &str, nanoseconds: f64, library: f64, cycles: Option<f64>) {
    let ratio = nanoseconds / library;
    let cycles = cycles.map_or(String::new(), |cycles| format!("{cycles:8.2} cycles a branch"));
    println!("  {name:28}{nanoseconds:12.0} ns a block  {ratio:9.2} x library  {cycles}");
}

/// The least nanoseconds a block of each decoder, taken in turn round by round.
fn time_decoders(plate: &[u64], blocks: &[Vec<i16>], times: usize) -> [f64; DECODERS.len()] {
    let (mut metrics, mut decisions) = (vec![0; 8192], vec![0; 4096]);
    let mut least = [f64::MAX; DECODERS.len()];
    for _ in 0..ROUNDS {
        for (least, (_, decoder)) in least.iter_mut().zip(DECODERS) {
            let time = best(1, || {
                for block in blocks.iter().cycle().take(times * BLOCKS) {
                    black_box(decoder(plate, black_box(block), &mut metrics, &mut decisions));
                }
            });
            *least = least.min(time / (times * BLOCKS) as f64);
        }
    }
    least
}

/// The least nanoseconds a block of the library, all blocks in one call.
fn time_batch(plate: &[u64], blocks: &[Vec<i16>], times: usize) -> f64 {
    let (mut metrics, mut decisions) = (vec![0; 8192], vec![0; 4096]);
    let (samples, mut words, mut scores) = (blocks.concat(), vec![0; blocks.len()], vec![0; blocks.len()]);
    let mut batch = |samples: &[i16]| {
        let rooms = (&mut metrics[..], &mut decisions[..]);
        batch_by_library(plate, samples, rooms, (&mut words, &mut scores));
        black_box((&words, &scores));
    };
    let time = best(ROUNDS, || (0..times).for_each(|_| batch(black_box(&samples))));
    for (block, answer) in blocks.iter().zip(words.into_iter().zip(scores)) {
        assert_eq!(by_library(plate, block, &mut metrics, &mut decisions), answer, "a batch");
    }
    time / (times * blocks.len()) as f64
}

fn time_code(code: &Code, clock: f64) {
    let plate = prepare(code, 0);
    let masked = prepare(code, 0x9b3d_5a1e_c477_26f1 >> (64 - code.n));
    let (widest, branches) = (sections::widest(&plate), branches(&plate));
    println!("{}: k {}, m {widest}, {branches} branches", code.name, plate[1]);
    agree(&plate, code.n);
    agree(&masked, code.n);
    let blocks = blocks(code.n, BLOCKS, LARGEST);
    let times = (20_000 / branches as usize).max(1);
    let (least, with_mask) = (time_decoders(&plate, &blocks, times), time_decoders(&masked, &blocks, times));
    let tested = best(ROUNDS, || (0..100).for_each(|_| plate_test(black_box(&plate)))) / 100.0;
    let per_branch = |time: f64| Some(time * clock / branches as f64);
    for ((name, _), time) in DECODERS.iter().zip(least) {
        row(name, time, least[0], per_branch(time));
    }
    let batch = time_batch(&plate, &blocks, times);
    row(&format!("library, a batch of {BLOCKS}"), batch, least[0], per_branch(batch));
    row("library, with a mask", with_mask[0], least[0], per_branch(with_mask[0]));
    row("library less its plate test", least[0] - tested, least[0], per_branch(least[0] - tested));
    #[cfg(liquid)]
    if code.n == 8 {
        row("liquid-dsp, its (8,4) code", liquid::time(&blocks, times * ROUNDS), least[0], None);
    }
    if plate[1] <= SEARCHED {
        let search = || _ = black_box(exhaustive(&plate, black_box(&blocks[0])));
        row("exhaustive search, Rust -O", best(3, search), least[0], None);
    }
    let prepared = best(ROUNDS, || (0..100).for_each(|_| _ = black_box(prepare(code, 0)))) / 100.0;
    println!("  library's prepare {prepared:.0} ns a call, plate test {tested:.0} ns a call\n");
}

/// Preparing 64 dense rows: the most that a matrix may have.
fn time_dense() {
    let mut state = 88_172_645_463_325_252u64;
    let mut row = |_| {
        state ^= state << 13;
        state ^= state >> 7;
        state ^= state << 17;
        state
    };
    let code = Code { name: "dense", n: 64, rows: (0..64).map(&mut row).collect() };
    let prepared = best(ROUNDS, || (0..100).for_each(|_| _ = black_box(prepare(&code, 0)))) / 100.0;
    println!("64 dense rows of length 64: library's prepare {prepared:.0} ns a call");
}

fn main() {
    let clock = clock();
    println!("core clock {clock:.2} GHz (sums that wait for each other, one a cycle)");
    println!("times are the least of {ROUNDS} rounds, the decoders taken in turn");
    println!("rooms: cleared before every block; each decoder leaves what it used zero, within its time");
    println!("the library tests plate and samples and counts branches, within its time; C with the tests tests them\n");
    let wanted = std::env::args().nth(1).unwrap_or_default();
    codes().iter().filter(|code| code.name.contains(&wanted)).for_each(|code| time_code(code, clock));
    time_dense();
}
