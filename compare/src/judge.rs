//! Judging a supplier's listing of branches: by the set of words that its full paths spell beside the set of the plate's words where both
//! are few, else by how many words go on from a state and a syndrome.

use crate::asked::{lent_plate, Rooms};
use crate::call::{Call, Name, Run};
use crate::coding::encode;
use crate::model::{refused_at, Model, DONE};
use crate::pairs::Pairs;
use crate::plate::{refuse, Plate, Refusal};
use crate::sheet::number;
use crate::words::{bit, earlier, ones_before};
use std::collections::{BTreeMap, BTreeSet};

pub const MOST_LINES: usize = 1024;
pub const MOST_STATES: usize = 1024;
const DEPTHS: usize = 65;
const SECTIONS: usize = 64;
/// So many words of a listing or of a plate are few.
const FEW_WORDS: usize = 1 << 10;

/// A branch: depth, from-state, bit, to-state.
pub type Branch = (usize, usize, u64, usize);

/// Where each branch leads, by depth, from-state and bit.
pub type Leads = BTreeMap<(usize, usize, u64), usize>;

#[derive(Clone, Debug, PartialEq, Eq)]
pub enum Verdict {
    Right,
    Wrongly(u64),
    Missing(u64),
}

/// A line without its line feed as the branch that it is; none where it is bad.
fn branch(line: &[u8], n: usize) -> Option<Branch> {
    let fields: Vec<&str> = std::str::from_utf8(line).ok()?.split('\t').collect();
    let ["branch", depth, from, digit, to] = fields[..] else { return None };
    let within = |field: &str, bound: usize| number(field, 4).map(|v| v as usize).filter(|&v| v < bound);
    let (depth, from) = (within(depth, n)?, within(from, MOST_STATES)?);
    Some((depth, from, within(digit, 2)? as u64, within(to, MOST_STATES)?))
}

/// The lines of a listing; what follows the last line feed is a bad line, unless it is empty.
fn lines(text: &[u8], n: usize) -> Vec<Option<Branch>> {
    let mut parts: Vec<&[u8]> = text.split(|&byte| byte == b'\n').collect();
    let unended = !parts.pop().expect("a part at least").is_empty();
    let mut found: Vec<_> = parts.into_iter().map(|line| branch(line, n)).collect();
    if unended {
        found.push(None);
    }
    found
}

/// Refusals 28, 26, 27 and 8, or the listing and the room that it needs.
fn listing(text: &[u8], n: usize, room: usize) -> Result<(Leads, usize), Refusal> {
    let lines = lines(text, n);
    if lines.len() > MOST_LINES {
        return refuse(28, 0);
    }
    let depth = |line: &Option<Branch>| line.map_or(0, |(depth, ..)| depth);
    let in_order = |i: usize| lines[i].is_some() && (i == 0 || depth(&lines[i - 1]) <= depth(&lines[i]));
    if let Some(line) = (0..lines.len()).find(|&i| !in_order(i)) {
        return refuse(26, line + 1);
    }
    let mut leads = Leads::new();
    for (line, &(depth, from, digit, to)) in lines.iter().flatten().enumerate() {
        if leads.insert((depth, from, digit), to).is_some() {
            return refuse(27, line + 1);
        }
    }
    if room < 4 * lines.len() {
        return refuse(8, 0);
    }
    Ok((leads, 4 * lines.len()))
}

/// The states of each depth on full paths: those that some path from the start reaches, and from which one reaches the end.
fn on_full_paths(leads: &Leads, n: usize) -> Vec<BTreeSet<usize>> {
    let mut reached = vec![BTreeSet::from([0])];
    for t in 0..n {
        let last = &reached[t];
        let next = leads.iter().filter(|((depth, from, _), _)| *depth == t && last.contains(from));
        reached.push(next.map(|(_, &to)| to).collect());
    }
    reached[n].retain(|&state| state == 0);
    for t in (0..n).rev() {
        let (front, behind) = reached.split_at_mut(t + 1);
        let leads_on = |&from: &usize| {
            (0..2).any(|digit| leads.get(&(t, from, digit)).is_some_and(|to| behind[0].contains(to)))
        };
        front[t].retain(leads_on);
    }
    reached
}

/// The words that full paths spell, unless they are more than so many.
fn spelled(leads: &Leads, states: &[BTreeSet<usize>], most: usize) -> Option<BTreeSet<u64>> {
    let n = states.len() - 1;
    let mut begun: Vec<(u64, usize)> = states[0].iter().map(|&state| (0, state)).collect();
    for t in 0..n {
        let mut longer = Vec::new();
        for &(word, state) in &begun {
            for digit in 0..2 {
                let to = leads.get(&(t, state, digit)).filter(|to| states[t + 1].contains(to));
                longer.extend(to.map(|&to| (word | digit << t, to)));
            }
        }
        begun = longer;
        if begun.len() > most {
            return None;
        }
    }
    Some(begun.into_iter().map(|(word, _)| word).collect())
}

/// The verdict by two sets of words: the earliest of those that one of them has alone.
pub fn by_sets(spelled: &BTreeSet<u64>, words: &BTreeSet<u64>) -> Verdict {
    let alone = spelled.symmetric_difference(words).copied();
    match alone.reduce(|a, b| if earlier(b, a) { b } else { a }) {
        None => Verdict::Right,
        Some(word) if spelled.contains(&word) => Verdict::Wrongly(word),
        Some(word) => Verdict::Missing(word),
    }
}

fn words_of(plate: &Plate) -> BTreeSet<u64> {
    (0..=ones_before(plate.k())).map(|information| encode(plate, information).unwrap()).collect()
}

/// How a listing is judged, by sets of words where these are few.
pub fn verdict(plate: &Plate, leads: &Leads, few: usize) -> Verdict {
    if plate.k() < 64 && 1usize << plate.k().min(62) <= few {
        if let Some(spelled) = spelled(leads, &on_full_paths(leads, plate.n), few) {
            return by_sets(&spelled, &words_of(plate));
        }
    }
    Pairs::new(plate, leads).verdict()
}

/// The least numbers of states by depth and of branches by section: how many classes of beginnings go on alike, by what they go on with
/// where the words are few, else by dimensions.
pub fn least_sizes(plate: &Plate, few: usize) -> (Vec<usize>, Vec<usize>) {
    if plate.k() < 64 && 1usize << plate.k().min(62) <= few {
        return least_by_sets(&words_of(plate), plate.n);
    }
    let begins = |t: usize| plate.rows.iter().any(|row| row.trailing_zeros() as usize == t);
    let states: Vec<usize> = plate.profile.iter().map(|&entry| 1 << entry).collect();
    let branches = (0..plate.n).map(|t| if begins(t) { 2 * states[t] } else { states[t] }).collect();
    (states, branches)
}

/// The same by the words themselves: beginnings by the set of what follows them, and with their next bit.
fn least_by_sets(words: &BTreeSet<u64>, n: usize) -> (Vec<usize>, Vec<usize>) {
    let (mut states, mut branches) = (Vec::new(), Vec::new());
    for t in 0..=n {
        let mut after: BTreeMap<u64, BTreeSet<u64>> = BTreeMap::new();
        for word in words {
            after.entry(word & ones_before(t)).or_default().insert(word & !ones_before(t));
        }
        let classes: BTreeSet<&BTreeSet<u64>> = after.values().collect();
        states.push(classes.len());
        if t < n {
            let bits =
                |class: &&BTreeSet<u64>| (0..2).filter(|&b| class.iter().any(|w| bit(*w, t) == b)).count();
            branches.push(classes.iter().map(bits).sum());
        }
    }
    (states, branches)
}

/// On a right listing: by how much its states and branches on full paths are more than the least.
fn surplus(plate: &Plate, leads: &Leads) -> (Vec<u64>, Vec<u64>) {
    let states = on_full_paths(leads, plate.n);
    let used = |t: usize| {
        let on = |((depth, from, _), to): &(&(usize, usize, u64), &usize)| {
            *depth == t && states[t].contains(from) && states[t + 1].contains(*to)
        };
        leads.iter().filter(on).count()
    };
    let (least_states, least_branches) = least_sizes(plate, FEW_WORDS);
    let over = |(found, least): (usize, usize)| found.checked_sub(least).expect("none is negative") as u64;
    let by_depth = states.iter().map(BTreeSet::len).zip(least_states).map(over).collect();
    (by_depth, (0..plate.n).map(used).zip(least_branches).map(over).collect())
}

/// The model's reply to the call.
pub fn answer(model: &mut Model, runs: &mut [Run]) -> u64 {
    let [plate, text, room, verdict_cells, states, branches, place] = runs else {
        unreachable!("judging has seven runs")
    };
    let accepted = model.plate(plate.words()).and_then(|plate| {
        let (leads, needed) = listing(text.bytes(), plate.n, room.length())?;
        Ok((plate, leads, needed))
    });
    let (plate, leads, needed) = match accepted {
        Ok(accepted) => accepted,
        Err(refusal) => return refused_at(refusal, place),
    };
    room.words()[..needed].fill(0);
    states.words()[..DEPTHS].fill(0);
    branches.words()[..SECTIONS].fill(0);
    let told = match verdict(&plate, &leads, FEW_WORDS) {
        Verdict::Right => {
            let (by_depth, by_section) = surplus(&plate, &leads);
            states.words()[..=plate.n].copy_from_slice(&by_depth);
            branches.words()[..plate.n].copy_from_slice(&by_section);
            [0, 0]
        }
        Verdict::Wrongly(word) => [1, word],
        Verdict::Missing(word) => [2, word],
    };
    verdict_cells.words()[..2].copy_from_slice(&told);
    place.words()[0] = 0;
    DONE
}

/// Lengths of the two runs for the surplus.
pub const SURPLUS: (usize, usize) = (DEPTHS, SECTIONS);

/// The call: a plate, a listing, so much room, and the lengths of the runs for the surplus.
pub fn asked(flat: &[u64], text: &[u8], room: usize, surplus: (usize, usize), rooms: Rooms) -> Call {
    let runs = vec![
        lent_plate(flat, rooms),
        Run::of_bytes("text", text),
        Run::room_words("room", room),
        Run::room_words("verdict", rooms.counts),
        Run::room_words("states", surplus.0),
        Run::room_words("branches", surplus.1),
        Run::room_words("place", rooms.place),
    ];
    Call { name: Name::Judge, numbers: vec![], runs }
}
