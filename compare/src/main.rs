//! Compares the library, over its C interface, with an independent model of the paper on many inputs.
//! README.md beside this folder says how to build and run it.

mod alist;
mod alists;
mod alone;
mod asked;
mod asking;
mod batch;
mod bounds;
mod bridge;
mod brute;
mod call;
mod coding;
mod comparison;
mod coverage;
mod damage;
mod decoding;
#[cfg(linked)]
mod direct;
mod firmness;
mod floats;
mod further;
mod header;
mod held;
mod itself;
mod judge;
mod judged;
mod level;
mod levels;
mod linear;
mod listing;
mod macros;
mod matrices;
mod model;
mod pairs;
mod plate;
mod random;
mod rooms;
mod shapes;
mod sheet;
mod sheets;
mod small;
mod supplied;
mod tally;
mod trellis;
mod verbs;
mod weights;
mod words;
mod worked;
#[cfg(linked)]
#[allow(dead_code)]
#[path = "../../include/yendrufal.rs"]
mod yendrufal;

use bridge::Bridge;
use call::Name;
use comparison::{Comparison, Library};
use random::Random;
use std::path::{Path, PathBuf};
use std::process::exit;

const USAGE: &str =
    "usage: compare --macros FILE [--self] [--sheets FOLDER] [--times N] [--calls N] [--seed N] [--without CALL] [--through COMMAND ..]
  --macros FILE     what compare/macros printed of the header
  --self            hold the model to the definitions and worked examples; asks no library
  --sheets FOLDER   also every NAME.sheet of a folder against its NAME.listing
  --times N         N times as many random inputs; with 0 neither these nor every small matrix
  --calls N         go on with more random inputs until N calls agree, as --calls 100000000
  --seed N          other random inputs
  --without CALL    leave a call out that the library does not have, as judge (again for each)
  --verb VERB INTO FILE ..   (alone) what the model says that a verb of yendrufal prints of each file, for same of two and two, into a folder
  --through ..      ask the library through a bridge that this command starts (last on the line)";

struct Wanted {
    macros: Option<PathBuf>,
    itself: bool,
    sheets: Option<PathBuf>,
    times: usize,
    calls: u64,
    seed: u64,
    without: Vec<Name>,
    through: Vec<String>,
}

fn usage() -> ! {
    eprintln!("{USAGE}");
    exit(2)
}

fn wanted() -> Wanted {
    let mut wanted = Wanted {
        macros: None,
        itself: false,
        sheets: None,
        times: 1,
        calls: 0,
        seed: 1,
        without: Vec::new(),
        through: Vec::new(),
    };
    let mut words = std::env::args().skip(1);
    while let Some(word) = words.next() {
        match word.as_str() {
            "--macros" => wanted.macros = Some(words.next().unwrap_or_else(|| usage()).into()),
            "--self" => wanted.itself = true,
            "--sheets" => wanted.sheets = Some(words.next().unwrap_or_else(|| usage()).into()),
            "--times" => wanted.times = words.next().and_then(|n| n.parse().ok()).unwrap_or_else(|| usage()),
            "--calls" => wanted.calls = words.next().and_then(|n| n.parse().ok()).unwrap_or_else(|| usage()),
            "--seed" => wanted.seed = words.next().and_then(|n| n.parse().ok()).unwrap_or_else(|| usage()),
            "--without" => {
                let name = words.next().and_then(|name| coverage::call_named(&name));
                wanted.without.push(name.unwrap_or_else(|| usage()));
            }
            "--through" => wanted.through = words.by_ref().collect(),
            _ => usage(),
        }
    }
    wanted
}

/// The library as this program was built or told to reach it.
fn library(through: &[String]) -> Library {
    if !through.is_empty() {
        return Library::Bridged(Bridge::start(through));
    }
    #[cfg(linked)]
    return Library::Linked;
    #[cfg(not(linked))]
    {
        eprintln!("built without the library: --self or --through\n{USAGE}");
        exit(2)
    }
}

/// The inputs that every comparison has: what is worked on paper, what stands in a folder, the header's macros, rooms.
fn fixed(comparison: &mut Comparison, sheets: Option<&Path>, random: &mut Random) {
    comparison.begin("worked examples");
    worked::examples(&mut |call| comparison.agree(call));
    if let Some(folder) = sheets {
        comparison.begin("outside sheets");
        worked::outside_sheets(folder, &mut |call| comparison.agree(call));
    }
    macros::run(comparison);
    rooms::run(comparison, random);
    bounds::run(comparison, random);
}

/// More random inputs until so many calls agree; says so at each tenth of them.
fn go_on(comparison: &mut Comparison, random: &mut Random, calls: u64) {
    let mut tenths = 10 * comparison.calls() / calls.max(1);
    while comparison.calls() < calls {
        matrices::run(comparison, random, 600);
        damage::more(comparison, random, 4);
        sheets::more(comparison, random, 120);
        levels::more(comparison, random, 4000);
        alists::more(comparison, random, 200);
        judged::more(comparison, random, 100, 400);
        if 10 * comparison.calls() / calls > tenths {
            tenths = 10 * comparison.calls() / calls;
            eprintln!("{} calls agree so far", comparison.calls());
        }
    }
}

fn compare(library: Library, wanted: &Wanted) {
    let mut comparison = Comparison::new(library, wanted.without.clone());
    let mut random = Random::new(wanted.seed);
    fixed(&mut comparison, wanted.sheets.as_deref(), &mut random);
    if wanted.times > 0 {
        small::run(&mut comparison);
        let widths = matrices::run(&mut comparison, &mut random, 3000 * wanted.times);
        println!("random matrices by widest profile entry, 0 to 13 and wider: {widths:?}");
        assert!(widths[..14].iter().all(|&seen| seen > 0), "not every width occurred");
    }
    damage::run(&mut comparison, &mut random, 20 * wanted.times);
    sheets::run(&mut comparison, &mut random, 600 * wanted.times);
    levels::run(&mut comparison, &mut random, 10_000 * wanted.times);
    alists::run(&mut comparison, &mut random, 1000 * wanted.times);
    judged::run(&mut comparison, &mut random, 1000 * wanted.times);
    go_on(&mut comparison, &mut random, wanted.calls);
    comparison.report();
    if wanted.times > 0 && !coverage::whole(&comparison) {
        exit(1)
    }
}

fn main() {
    // --verb VERB INTO FILE ..: what the model says that the verb prints of each file
    let words: Vec<String> = std::env::args().skip(1).collect();
    if words.len() > 3 && words[0] == "--verb" {
        return verbs::run(&words[1], &words[3..], &words[2]);
    }
    let wanted = wanted();
    let macros = wanted.macros.as_ref().unwrap_or_else(|| usage());
    header::load(&std::fs::read_to_string(macros).expect("the macros are there"));
    if wanted.itself {
        itself::run(wanted.sheets.as_deref());
    } else {
        compare(library(&wanted.through), &wanted);
    }
}
