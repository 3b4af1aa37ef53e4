//! A decoder in Rust around a section step: sections of a plate, the sweep, the reading off. It trusts
//! the plate and the samples, and leaves the part of the rooms that it used zero, as the library does.

/// What a section needs to know; `ending` is the digit of the row that ends in it, `turned` the mask's bit at its position.
#[derive(Clone, Copy, Default)]
pub struct Section {
    pub live: u32,
    pub begins: bool,
    pub ending: Option<u32>,
    pub turned: u64,
    pub column: u64,
}

impl Section {
    /// The bit of a branch number.
    #[inline]
    pub fn bit(&self, x: usize) -> u64 {
        parity(x as u64 & self.column) ^ self.turned
    }

    /// The branch number without the digit of the row that ends.
    #[inline]
    pub fn without(&self, x: usize) -> usize {
        match self.ending {
            Some(ending) => (x >> (ending + 1)) << ending | x & ((1 << ending) - 1),
            None => x,
        }
    }
}

pub fn parity(word: u64) -> u64 {
    u64::from(word.count_ones()) & 1
}

/// Where the mask stands in a flat plate.
pub const MASK: usize = 131;

/// Finds the sections of a flat plate, with a running table of its live rows.
fn find_sections(plate: &[u64], found: &mut [Section]) {
    let rows = &plate[2..2 + plate[1] as usize];
    let (mut live, mut count, mut next) = ([0u64; 16], 0, 0);
    for (t, section) in found.iter_mut().enumerate() {
        section.live = count as u32;
        section.turned = plate[MASK] >> t & 1;
        if next < rows.len() && rows[next] >> t & 1 == 1 {
            section.begins = true;
            live[count] = rows[next];
            count += 1;
            next += 1;
        }
        for (j, row) in live[..count].iter().enumerate() {
            section.column |= (row >> t & 1) << j;
            if row >> t == 1 {
                section.ending = Some(j as u32);
            }
        }
        if let Some(ending) = section.ending {
            live.copy_within(ending as usize + 1..count, ending as usize);
            count -= 1;
        }
    }
}

/// m of a flat plate: its largest profile entry.
pub fn widest(plate: &[u64]) -> u64 {
    *plate[66..67 + plate[0] as usize].iter().max().unwrap()
}

/// Sweeps from the far end with the step, and gives word and metric.
#[inline]
pub fn decode(
    step: impl Fn(&Section, i32, &[i32], &mut [i32], &mut [u64]),
    plate: &[u64],
    samples: &[i16],
    metrics: &mut [i32],
    decisions: &mut [u64],
) -> (u64, i32) {
    let half = 1 << widest(plate);
    let words = usize::max(1, half / 64);
    let sections = &mut [Section::default(); 64][..samples.len()];
    find_sections(plate, sections);
    let (mut from, mut to) = metrics[..2 * half].split_at_mut(half);
    from[0] = 0;
    for (t, section) in sections.iter().enumerate().rev() {
        step(section, i32::from(samples[t]), from, to, &mut decisions[t * words..(t + 1) * words]);
        (from, to) = (to, from);
    }
    let metric = from[0];
    let (mut word, mut state) = (0, 0);
    for (t, section) in sections.iter().enumerate() {
        let bit = decisions[t * words + state / 64] >> (state % 64) & 1;
        if bit != section.bit(state) {
            state |= 1 << section.live;
        }
        word |= bit << t;
        state = section.without(state);
    }
    metrics[..2 * half].fill(0);
    decisions[..sections.len() * words].fill(0);
    (word, metric)
}
