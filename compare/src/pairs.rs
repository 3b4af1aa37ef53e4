//! How many words go on from a state of a listing and a syndrome that is to be made up: those that the listing spells, those of the
//! plate, and those of both. Two sets are equal exactly if all three numbers are.

use crate::judge::{Leads, Verdict};
use crate::linear::Basis;
use crate::plate::Plate;
use std::collections::HashMap;

pub struct Pairs<'a> {
    plate: &'a Plate,
    leads: &'a Leads,
    /// What the columns from each position on can make up.
    rests: Vec<Basis>,
    spelled: HashMap<(usize, usize), u128>,
    both: HashMap<(usize, usize, u64), u128>,
}

/// A state of the listing, or none, and the syndrome that is to be made up from a depth on.
#[derive(Clone, Copy)]
struct Pair {
    depth: usize,
    state: Option<usize>,
    syndrome: u64,
}

impl Pairs<'_> {
    pub fn new<'a>(plate: &'a Plate, leads: &'a Leads) -> Pairs<'a> {
        let mut rests = vec![Basis::new()];
        for &column in plate.columns.iter().rev() {
            let mut longer = rests.last().unwrap().clone();
            longer.insert(column, 0);
            rests.push(longer);
        }
        rests.reverse();
        Pairs { plate, leads, rests, spelled: HashMap::new(), both: HashMap::new() }
    }

    /// The pair after a bit.
    fn after(&self, pair: Pair, digit: u64) -> Pair {
        let lead = |state| self.leads.get(&(pair.depth, state, digit)).copied();
        Pair {
            depth: pair.depth + 1,
            state: pair.state.and_then(lead),
            syndrome: pair.syndrome ^ digit * self.plate.columns[pair.depth],
        }
    }

    /// How many endings the listing spells from the state.
    fn spelled(&mut self, pair: Pair) -> u128 {
        let Some(state) = pair.state else { return 0 };
        if pair.depth == self.plate.n {
            return u128::from(state == 0);
        }
        if let Some(&known) = self.spelled.get(&(pair.depth, state)) {
            return known;
        }
        let count = self.spelled(self.after(pair, 0)) + self.spelled(self.after(pair, 1));
        self.spelled.insert((pair.depth, state), count);
        count
    }

    /// How many endings make up the syndrome.
    fn made_up(&self, pair: Pair) -> u128 {
        let rest = &self.rests[pair.depth];
        match rest.express(pair.syndrome) {
            Some(_) => 1 << (self.plate.n - pair.depth - rest.rank()),
            None => 0,
        }
    }

    /// How many endings do both.
    fn both(&mut self, pair: Pair) -> u128 {
        let Some(state) = pair.state else { return 0 };
        if pair.depth == self.plate.n {
            return u128::from(state == 0 && pair.syndrome == 0);
        }
        let key = (pair.depth, state, pair.syndrome);
        if let Some(&known) = self.both.get(&key) {
            return known;
        }
        let count = self.both(self.after(pair, 0)) + self.both(self.after(pair, 1));
        self.both.insert(key, count);
        count
    }

    fn alike(&mut self, pair: Pair) -> bool {
        let both = self.both(pair);
        self.spelled(pair) == both && self.made_up(pair) == both
    }

    /// Right, or the word that is found by going on with 0 wherever the two sets differ there already.
    pub fn verdict(&mut self) -> Verdict {
        let mut pair = Pair { depth: 0, state: Some(0), syndrome: self.plate.syndrome_of_words() };
        if self.alike(pair) {
            return Verdict::Right;
        }
        let mut word = 0;
        while pair.depth < self.plate.n {
            let zero = self.after(pair, 0);
            let digit = u64::from(self.alike(zero));
            word |= digit << pair.depth;
            pair = self.after(pair, digit);
        }
        if pair.state == Some(0) {
            Verdict::Wrongly(word)
        } else {
            Verdict::Missing(word)
        }
    }
}
