//! The macros of `include/yendrufal.h`, from the table that `compare/macros` prints. The rooms of calls are sized by these; what the
//! model asks for is its own.

use crate::plate::Plate;
use std::collections::{BTreeMap, BTreeSet};
use std::sync::{Mutex, OnceLock};

struct Header {
    /// Values by name and arguments.
    values: BTreeMap<String, usize>,
    /// The names of macros that nobody has asked for yet.
    unasked: Mutex<BTreeSet<String>>,
}

static HEADER: OnceLock<Header> = OnceLock::new();

const PREFIX: &str = "YENDRUFAL_";

/// Takes the table in; to be called once, before everything else.
pub fn load(table: &str) {
    let lines = table.lines().map(|line| line.strip_prefix(PREFIX).expect("a macro of the header"));
    let names = lines.clone().map(|line| line.split(' ').next().unwrap().to_string());
    let values = lines.filter_map(|line| line.rsplit_once(' '));
    let values = values.map(|(name, value)| (name.to_string(), value.parse().expect("a number")));
    let header = Header { values: values.collect(), unasked: Mutex::new(names.collect()) };
    assert!(HEADER.set(header).is_ok(), "the header is loaded once");
}

/// The value of a macro, named without its prefix and followed by its arguments.
pub fn value(name: &str) -> usize {
    let header = HEADER.get().expect("the header is loaded");
    header.unasked.lock().unwrap().remove(name.split(' ').next().unwrap());
    *header.values.get(name).unwrap_or_else(|| panic!("the header has no {PREFIX}{name}"))
}

/// Whether the header has a macro, named without its prefix and followed by its arguments.
pub fn has(name: &str) -> bool {
    HEADER.get().expect("the header is loaded").values.contains_key(name)
}

/// A reply or another number, as calls have them.
pub fn number(name: &str) -> u64 {
    value(name) as u64
}

/// The names of macros that nobody has asked for.
pub fn unasked() -> Vec<String> {
    HEADER.get().expect("the header is loaded").unasked.lock().unwrap().iter().cloned().collect()
}

/// Both working rooms for a plate.
pub fn rooms(plate: &Plate) -> (usize, usize) {
    let (n, m) = (plate.n, plate.widest());
    (value(&format!("METRICS {m}")), value(&format!("DECISIONS {n} {m}")))
}

/// Both working rooms for any plate.
pub fn rooms_most() -> (usize, usize) {
    (value("METRICS_MOST"), value("DECISIONS_MOST"))
}

/// The room for the listing of a sheet, by the lines that begin as a block or a heard line does. A sheet with more of them than the
/// table has is over its greatest length, and its listing is one line.
pub fn listing_room(sheet: &[u8]) -> usize {
    let counted = |line: &&[u8]| line.starts_with(b"block") || line.starts_with(b"heard");
    let lines = sheet.split(|&byte| byte == b'\n').filter(counted).count();
    value(&format!("LISTING {}", lines.min(8191)))
}
