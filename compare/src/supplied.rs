//! A supplier's listings: a plate's own trellis, a tree of prefixes, the same made larger, named anew, changed, and their texts.

use crate::coding::encode;
use crate::judge::{Branch, MOST_STATES};
use crate::linear::Basis;
use crate::plate::Plate;
use crate::random::Random;
use crate::words::{bit, ones_before};
use std::collections::{BTreeMap, BTreeSet};

/// The smallest listing of a plate, by classes of beginnings with one syndrome: those that the later columns can make up.
pub fn own(plate: &Plate) -> Vec<Branch> {
    let mut rests = vec![Basis::new()];
    for &column in plate.columns.iter().rev() {
        let mut longer = rests.last().unwrap().clone();
        longer.insert(column, 0);
        rests.push(longer);
    }
    let mut listing = Vec::new();
    let mut here = BTreeMap::from([(plate.syndrome_of_words(), 0)]);
    for t in 0..plate.n {
        let mut next = BTreeMap::new();
        for (&syndrome, &from) in &here {
            for digit in 0..2 {
                let left = syndrome ^ digit * plate.columns[t];
                if rests[plate.n - t - 1].express(left).is_some() {
                    let name = next.len();
                    listing.push((t, from, digit, *next.entry(left).or_insert(name)));
                }
            }
        }
        here = next;
    }
    listing
}

/// The tree of all beginnings of a plate's words, which are few; its leaves are the end.
pub fn tree(plate: &Plate) -> Vec<Branch> {
    let words: Vec<u64> =
        (0..=ones_before(plate.k())).map(|information| encode(plate, information).unwrap()).collect();
    let mut listing = Vec::new();
    let mut here = BTreeMap::from([(0, 0)]);
    for t in 0..plate.n {
        let begun: BTreeSet<u64> = words.iter().map(|word| word & ones_before(t + 1)).collect();
        let names: BTreeMap<u64, usize> = begun.iter().copied().zip(0..).collect();
        for word in begun {
            let to = if t + 1 == plate.n { 0 } else { names[&word] };
            listing.push((t, here[&(word & ones_before(t))], bit(word, t), to));
        }
        here = names;
    }
    listing
}

/// A state of a depth that no branch has.
fn unused(listing: &[Branch], depth: usize) -> usize {
    let used: BTreeSet<usize> = listing
        .iter()
        .flat_map(|&(t, from, _, to)| [(t, from), (t + 1, to)])
        .filter(|(t, _)| *t == depth)
        .map(|(_, state)| state)
        .collect();
    (0..MOST_STATES).find(|state| !used.contains(state)).unwrap_or(0)
}

/// A state made two: one branch that enters it enters its double instead, from which all goes on as from the first.
pub fn larger(random: &mut Random, listing: &mut Vec<Branch>, n: usize) {
    let at = random.below(listing.len());
    let (t, _, _, state) = listing[at];
    if t + 1 == n {
        return;
    }
    let double = unused(listing, t + 1);
    listing[at].3 = double;
    let on: Vec<Branch> = listing.iter().filter(|b| (b.0, b.1) == (t + 1, state)).copied().collect();
    listing.extend(on.into_iter().map(|(t, _, digit, to)| (t, double, digit, to)));
    listing.sort_by_key(|branch| branch.0);
}

/// Branches on no full path: from a state that nothing enters, to one that nothing leaves, past the start or the end.
pub fn useless(random: &mut Random, listing: &mut Vec<Branch>, n: usize) {
    for _ in 0..1 + random.below(3) {
        let t = random.below(n);
        let (from, to) = (unused(listing, t), unused(listing, t + 1));
        let known = random.pick(listing);
        let branch = match random.below(3) {
            0 => (t, from, random.next() % 2, to),
            1 => (known.0, unused(listing, known.0), known.2, known.3),
            _ => (known.0, known.1, 1 - known.2, unused(listing, known.0 + 1)),
        };
        let taken = listing.iter().any(|b| (b.0, b.1, b.2) == (branch.0, branch.1, branch.2));
        // state 0 begins at depth 0 and ends at depth n, so that it is never useless there
        let part = (branch.0 == 0 && branch.1 == 0) || (branch.0 + 1 == n && branch.3 == 0);
        if !taken && !part {
            listing.push(branch);
        }
    }
    listing.sort_by_key(|branch| branch.0);
}

/// Other names for the states between, and other orders of the branches of a depth.
pub fn named_anew(random: &mut Random, listing: &mut [Branch], n: usize) {
    let same = random.one_in(3);
    let shifts: Vec<(usize, usize)> =
        (0..n).map(|_| (2 * random.below(512) + 1, random.below(MOST_STATES))).collect();
    // an odd factor and a summand give each state another name
    let name = |depth: usize, state: usize| {
        if depth == 0 || depth >= n || same {
            return state;
        }
        let (factor, summand) = shifts[depth];
        (factor * state + summand) % MOST_STATES
    };
    for branch in listing.iter_mut() {
        branch.1 = name(branch.0, branch.1);
        branch.3 = name(branch.0 + 1, branch.3);
    }
    for i in (1..listing.len()).rev() {
        let j = random.below(i + 1);
        if listing[i].0 == listing[j].0 {
            listing.swap(i, j);
        }
    }
}

/// A branch more between states that are there, with the bit that one of them does not have yet: only more words are spelled.
fn one_more(random: &mut Random, listing: &mut Vec<Branch>) {
    let there: BTreeSet<(usize, usize, u64)> = listing.iter().map(|b| (b.0, b.1, b.2)).collect();
    let open: Vec<usize> = (0..listing.len())
        .filter(|&i| !there.contains(&(listing[i].0, listing[i].1, 1 - listing[i].2)))
        .collect();
    if !open.is_empty() {
        let at = random.pick(&open);
        let (t, from, digit, _) = listing[at];
        let beside: Vec<usize> = listing.iter().filter(|b| b.0 == t).map(|b| b.3).collect();
        listing.insert(at, (t, from, 1 - digit, random.pick(&beside)));
    }
}

/// One change: a branch left out, turned, led or begun elsewhere, put in, doubled, or moved out of its order.
pub fn changed(random: &mut Random, listing: &mut Vec<Branch>, n: usize) {
    if listing.is_empty() {
        return;
    }
    let (at, other) = (random.below(listing.len()), random.below(listing.len()));
    let state = if random.one_in(2) { listing[other].3 } else { random.below(MOST_STATES) };
    match random.below(11) {
        0 => drop(listing.remove(at)),
        1 => listing[at].2 ^= 1,
        2 | 3 => listing[at].3 = state,
        4 => listing[at].1 = state,
        5 => listing.insert(at, (listing[at].0, state, random.next() % 2, listing[other].3)),
        6 if random.one_in(3) => {
            let (t, from, digit, _) = listing[at];
            listing.insert(at, (t, from, digit, state));
        }
        7 if random.one_in(3) => listing.swap(at, other),
        8..=10 => one_more(random, listing),
        _ => listing[at].0 = if random.one_in(6) { random.below(n + 1) } else { listing[at].0 },
    }
}

pub fn text(listing: &[Branch]) -> String {
    listing.iter().map(|(t, from, digit, to)| format!("branch\t{t}\t{from}\t{digit}\t{to}\n")).collect()
}

/// One small damage of a text.
pub fn spoiled_text(random: &mut Random, text: &str) -> Vec<u8> {
    let mut bytes = text.as_bytes().to_vec();
    if bytes.is_empty() {
        return random.pick(&[&b"\n"[..], b"x", b"branch", b"\t"]).to_vec();
    }
    let at = random.below(bytes.len());
    match random.below(5) {
        0 => drop(bytes.remove(at)),
        1 => bytes.insert(at, random.pick(b"\t\n0129- b\r\x00\xff")),
        2 => bytes[at] = random.pick(b"\t\n0129- b\r\x00\xff"),
        3 => bytes.truncate(at),
        _ => bytes[at] ^= 1 << random.below(8),
    }
    bytes
}
