//! Prepares a code of length 8, decodes one block of samples with it, and prints the answer.
//!
//! Build:   rustc -O --edition 2021 examples/decode.rs -C link-arg=target/staticlib/libexports.a -o target/decode
//! Prints:  word 11110000, metric 19, additions 44, comparisons 11

#[allow(dead_code)]
#[path = "../include/yendrufal.rs"]
mod yendrufal;

use yendrufal::{Kind, Plate, Rooms};

fn main() -> yendrufal::Result<()> {
    // Position 0 is the lowest bit, so the row 11110000 on paper is 0x0f. The mask is 0: none.
    let plate = Plate::prepare(8, Kind::G, &[0x0f, 0x5a, 0x3c, 0xf0], 0)?;

    // The library has no memory of its own: the working rooms are ours, here as large as this plate needs.
    let (mut metrics, mut decisions) = (vec![0; plate.metrics_needed()], vec![0; plate.decisions_needed()]);
    let mut rooms = Rooms { metrics: &mut metrics, decisions: &mut decisions };

    // One sample a position; a positive one favours 0.
    let answer = plate.decode(&[-3, -2, 4, -1, 5, 6, -1, 7], &mut rooms)?;
    let word: String = (0..plate.n()).map(|i| if answer.word >> i & 1 == 1 { '1' } else { '0' }).collect();
    let counts = answer.counts;
    println!(
        "word {word}, metric {}, additions {}, comparisons {}",
        answer.metric, counts.additions, counts.comparisons
    );
    Ok(())
}
