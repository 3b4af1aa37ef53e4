//! The comparison: each call is answered by the model and by the library, and every cell must agree.

use crate::bridge::{self, Bridge};
use crate::call::{Call, Name};
use crate::model::Model;
use std::collections::BTreeMap;
use std::process::exit;

/// Where the library is.
pub enum Library {
    #[cfg(linked)]
    Linked,
    Bridged(Bridge),
}

/// Bytes of calls that are sent to a bridge together.
const BATCH: usize = 1 << 20;

/// A call as asked, as the model left it, and the model's reply.
struct Waiting {
    asked: Call,
    expected: Call,
    reply: u64,
}

pub struct Comparison {
    pub model: Model,
    library: Library,
    /// Calls that the library at hand does not have: the model alone answers them, and they are not counted.
    without: Vec<Name>,
    kind: &'static str,
    /// How many calls agreed, by kind of input, call and reply.
    agreed: BTreeMap<(&'static str, Name, u64), u64>,
    order: Vec<&'static str>,
    waiting: Vec<Waiting>,
    asked: Vec<u8>,
    expected: Vec<u8>,
}

/// Prints the call on which the two differ, whole, and ends the program.
fn differ(asked: &Call, expected: (&Call, u64), found: (&Call, u64)) -> ! {
    println!("DIFFERENT: {asked}");
    println!("model replies {}, library {}", expected.1, found.1);
    for (model, library) in expected.0.runs.iter().zip(&found.0.runs) {
        if let Some(cell) = model.difference(library) {
            println!("afterwards they differ, first at cell {cell}\n  model   {model}\n  library {library}");
        }
    }
    exit(1)
}

impl Comparison {
    pub fn new(library: Library, without: Vec<Name>) -> Comparison {
        Comparison {
            model: Model::new(),
            library,
            without,
            kind: "",
            agreed: BTreeMap::new(),
            order: Vec::new(),
            waiting: Vec::new(),
            asked: Vec::new(),
            expected: Vec::new(),
        }
    }

    /// What the next calls are counted under.
    pub fn begin(&mut self, kind: &'static str) {
        self.finish();
        self.kind = kind;
        if !self.order.contains(&kind) {
            self.order.push(kind);
        }
    }

    /// Whether a call is not compared, since the library at hand does not have it.
    pub fn leaves_out(&self, name: Name) -> bool {
        self.without.contains(&name)
    }

    /// How many calls were put so far; each agreed, or the program has ended.
    pub fn calls(&self) -> u64 {
        self.agreed.values().sum()
    }

    /// Puts a call to both sides; gives back the model's reply and the call as the model left it.
    pub fn agree(&mut self, asked: Call) -> (u64, Call) {
        let mut expected = asked.clone();
        let reply = self.model.answer(&mut expected);
        if self.leaves_out(asked.name) {
            return (reply, expected);
        }
        *self.agreed.entry((self.kind, asked.name, reply)).or_insert(0) += 1;
        match &mut self.library {
            #[cfg(linked)]
            Library::Linked => {
                let mut found = asked.clone();
                let library_reply = crate::direct::answer(&mut found);
                if library_reply != reply || found != expected {
                    differ(&asked, (&expected, reply), (&found, library_reply));
                }
            }
            Library::Bridged(_) => {
                bridge::append(&mut self.asked, &asked, None);
                bridge::append(&mut self.expected, &expected, Some(reply));
                self.waiting.push(Waiting { asked, expected: expected.clone(), reply });
                if self.asked.len() > BATCH {
                    self.finish();
                }
            }
        }
        (reply, expected)
    }

    /// Has the calls that still wait for a bridge answered and compared.
    pub fn finish(&mut self) {
        let answer = match &mut self.library {
            #[cfg(linked)]
            Library::Linked => return,
            Library::Bridged(bridge) => bridge.ask(&self.asked),
        };
        if answer != self.expected {
            let mut at = 0;
            for one in &self.waiting {
                let mut found = one.asked.clone();
                let reply = bridge::answered(&mut found, &answer[at..]);
                if reply != one.reply || found != one.expected {
                    differ(&one.asked, (&one.expected, one.reply), (&found, reply));
                }
                let mut measure = Vec::new();
                bridge::append(&mut measure, &one.asked, None);
                at += measure.len();
            }
            panic!("the bridge changed a batch outside of its runs");
        }
        self.waiting.clear();
        self.asked.clear();
        self.expected.clear();
    }

    /// How many calls there were of each, as said by a key.
    fn counted<K: Ord>(&self, key: impl Fn(&'static str, Name, u64) -> K) -> BTreeMap<K, u64> {
        let mut counts = BTreeMap::new();
        for (&(kind, name, reply), count) in &self.agreed {
            *counts.entry(key(kind, name, reply)).or_insert(0) += count;
        }
        counts
    }

    /// How many calls had each reply.
    pub fn replies(&self) -> BTreeMap<(Name, u64), u64> {
        self.counted(|_, name, reply| (name, reply))
    }

    /// Prints how many calls agreed: a line for each kind of input, a line for each call with its replies, and the sum.
    pub fn report(&mut self) {
        self.finish();
        let (by_kind, by_call, replies) =
            (self.counted(|kind, _, _| kind), self.counted(|_, name, _| name), self.replies());
        println!("calls that agree, by kind of input:");
        for kind in self.order.iter().filter(|kind| by_kind.contains_key(**kind)) {
            println!("  {kind}: {}", by_kind[kind]);
        }
        println!("by call, and how many had each reply (0: done, 1 to 28: refused, 100: no branch, 101: a run too short):");
        for (name, count) in by_call {
            let of_call = replies.iter().filter(|((of, _), _)| *of == name);
            let had: Vec<String> = of_call.map(|((_, reply), count)| format!("{reply}: {count}")).collect();
            println!("  {name:?}: {count} ({})", had.join(", "));
        }
        if !self.without.is_empty() {
            println!("LEFT OUT, not compared: {:?}", self.without);
        }
        println!("in all: {} calls agree", self.calls());
    }
}
