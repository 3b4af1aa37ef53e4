//! Which replies each call may give, and that each was met.

use crate::call::Name;
use crate::comparison::Comparison;

const DECODING: &[u64] = &[0, 5, 6, 7, 8, 9, 101];
const OF_PLATE: &[u64] = &[0, 5, 11, 101];
const PLAIN_LINE: &[u64] = &[0, 11, 101];

const REPLIES: [(Name, &[u64]); 29] = [
    (Name::Prepare, &[0, 1, 2, 3, 4, 23, 101]),
    (Name::PlateOfSheet, &[0, 1, 2, 4, 10, 15, 17, 18, 19, 20, 101]),
    (Name::Branch, &[0, 5, 12, 100, 101]),
    (Name::Encode, &[0, 5, 13, 101]),
    (Name::ReadBack, &[0, 5, 14, 101]),
    (Name::Decode, DECODING),
    (Name::DecodeBlocks, DECODING),
    (Name::Metric, &[0, 5, 6, 7, 8, 101]),
    (Name::Word, DECODING),
    (Name::Firmness, &[0, 5, 6, 7, 8, 9, 21, 101]),
    (Name::FirmnessAll, DECODING),
    (Name::WhyNot, DECODING),
    (Name::WritePlate, OF_PLATE),
    (Name::WriteProfile, OF_PLATE),
    (Name::WriteWord, OF_PLATE),
    (Name::WriteRefused, PLAIN_LINE),
    (Name::WriteEnd, PLAIN_LINE),
    (Name::WriteTally, PLAIN_LINE),
    (Name::WriteWeight, PLAIN_LINE),
    (Name::WriteLeast, PLAIN_LINE),
    (Name::WriteNoLeast, PLAIN_LINE),
    (Name::WidestEntry, &[0, 5, 101]),
    (Name::Weights, &[0, 5, 8, 22, 101]),
    (Name::Level, &[0, 24, 25, 101]),
    (Name::Levels, &[0, 1, 6, 24, 25, 101]),
    (Name::ReadAlist, &[0, 16, 101]),
    (Name::WriteAlist, &[0, 1, 2, 3, 11, 16, 101]),
    (Name::Judge, &[0, 5, 8, 26, 27, 28, 101]),
    (Name::Listing, &[0, 8, 9, 11, 101]),
];

/// The name of a call as the header has it, without its prefix.
pub fn header_name(name: Name) -> String {
    let letters = format!("{name:?}");
    let parts = letters.char_indices().map(|(i, letter)| {
        let part = if i > 0 && letter.is_uppercase() { "_" } else { "" };
        format!("{part}{}", letter.to_lowercase())
    });
    parts.collect()
}

/// The call of such a name.
pub fn call_named(name: &str) -> Option<Name> {
    REPLIES.into_iter().map(|(call, _)| call).find(|&call| header_name(call) == name)
}

/// Whether every call was compared with every reply that it may give, and with no other; says so where it was not.
pub fn whole(comparison: &Comparison) -> bool {
    let replies = comparison.replies();
    let mut whole = true;
    for (name, due) in REPLIES.into_iter().filter(|(name, _)| !comparison.leaves_out(*name)) {
        let met: Vec<u64> = replies.keys().filter(|(of, _)| *of == name).map(|(_, reply)| *reply).collect();
        if met != due {
            println!("NOT WHOLE: {name:?} replied {met:?}, and may reply {due:?}");
            whole = false;
        }
    }
    whole
}
