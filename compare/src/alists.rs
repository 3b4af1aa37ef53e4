//! Alist texts: of random matrices, in our form and beyond it; small ones with every number changed, one and two at once; damaged ones;
//! and matrices to be written, at the bounds of their refusals.

use crate::alist::{asked_read, asked_write, text, TABLE};
use crate::asked::{Rooms, FIXED};
use crate::comparison::Comparison;
use crate::model::DONE;
use crate::random::{matrix, spoiled, Random};
use crate::small::all_lists;
use crate::words::ones_before;

/// Texts just inside or outside of the form.
const AWKWARD: [&str; 34] = [
    "",
    "\n",
    " ",
    "1",
    "1 1",
    "1 1\n",
    "1 1\n1 1\n1\n1\n1\n1\n",
    "1 1\n1 1\n1\n1\n1\n1",
    "1 1\n1 1\n1\n1\n1\n1\n\n",
    "1 1\n1 1\n1\n1\n1\n1\n1\n",
    "1 1\n1 1\n1\n1\n1\n1\n ",
    "1 1\n0 0\n0\n0\n\n\n",
    "1 1\n0 0\n0\n0\n\n",
    "1 1\n0 0\n0\n0\n\n\n\n",
    "1 1\n0 0\n0\n0\n0\n0\n",
    "1 1\n1 1\n1\n1\n0\n0\n",
    "1 1\n1 1\n0\n0\n0\n0\n",
    "1  1\n1    1\n1\n1\n1\n1\n",
    "1 1 \n1 1\n1\n1\n1\n1\n",
    " 1 1\n1 1\n1\n1\n1\n1\n",
    "1\t1\n1 1\n1\n1\n1\n1\n",
    "1 1\r\n1 1\n1\n1\n1\n1\n",
    "01 1\n1 1\n1\n1\n1\n1\n",
    "1 1\n1 1\n1\n1\n01\n1\n",
    "1 1\n1 1\n1\n1\n+1\n1\n",
    "1 1\n1 1\n1\n1\n-1\n1\n",
    "0 1\n0 0\n\n0\n\n",
    "1 0\n0 0\n0\n\n\n",
    "65 1\n1 1\n",
    "1 65\n1 1\n",
    "1 1\n2 1\n2\n1\n1 1\n1\n",
    "1 1\n1 18446744073709551617\n1\n1\n1\n1\n",
    "3 2\n1 2\n1 1 1\n2 1\n1\n1\n2\n2 1\n3 0\n",
    "3 2\n1 2\n1 1 1\n2 1\n1\n1\n2\n2 1\n0 3\n",
];

fn read(comparison: &mut Comparison, text: &[u8]) -> u64 {
    comparison.agree(asked_read(text, TABLE, FIXED)).0
}

/// Rows of a matrix with 1 to 64 columns and rows, sparse ones and full ones among them.
fn some_rows(random: &mut Random) -> (usize, Vec<u64>) {
    if random.one_in(4) {
        let found = matrix(random);
        if !found.rows.is_empty() {
            return (found.n as usize, found.rows);
        }
    }
    let size =
        |random: &mut Random| if random.one_in(3) { 1 + random.below(64) } else { 1 + random.below(9) };
    let (n, count, temper) = (size(random), size(random), random.below(4));
    let mut one = |_| match temper {
        0 => random.word(n) & random.next() & random.next(),
        1 => ones_before(n),
        2 => random.pick(&[0, 0, 1, 1 << (n - 1)]),
        _ => random.word(n),
    };
    (n, (0..count).map(&mut one).collect())
}

/// A text by its lines, each of which is its numbers.
fn lines_of(text: &str) -> Vec<Vec<String>> {
    let fields = |line: &str| line.split(' ').filter(|field| !field.is_empty()).map(String::from).collect();
    text.lines().map(fields).collect()
}

fn joined(lines: &[Vec<String>], space: &mut dyn FnMut() -> String) -> String {
    let mut text = String::new();
    for line in lines {
        for (i, field) in line.iter().enumerate() {
            text += &if i == 0 { String::new() } else { space() };
            text += field;
        }
        text.push('\n');
    }
    text
}

/// What reading accepts beyond our form: several spaces for one, and indices in any order.
fn beyond_our_form(random: &mut Random, text: &str) -> String {
    let mut lines = lines_of(text);
    for list in lines.iter_mut().skip(4) {
        let weight = list.iter().filter(|field| *field != "0").count();
        for i in (1..weight).rev() {
            list.swap(i, random.below(i + 1));
        }
    }
    joined(&lines, &mut || " ".repeat(1 + random.pick(&[0, 0, 0, 1, 5])))
}

/// One number changed, left out, doubled or exchanged with another of its line; or a line left out, doubled or exchanged.
fn numbers_changed(random: &mut Random, text: &str) -> String {
    let mut lines = lines_of(text);
    let at = if random.one_in(2) { random.below(4) } else { random.below(lines.len()) };
    let line = &mut lines[at];
    let place = random.below(line.len().max(1));
    match random.below(8) {
        0 => drop(lines.remove(at)),
        1 => lines.insert(at, lines[random.below(lines.len())].clone()),
        2 => {
            let other = random.below(lines.len());
            lines.swap(at, other);
        }
        3 => line.insert(place, random.pick(&["0", "1", "2"]).into()),
        _ if line.is_empty() => {}
        4 => drop(line.remove(place)),
        5 => {
            let other = random.below(line.len());
            line.swap(place, other);
        }
        6 => line[place] = random.pick(&["0", "00", "64", "65", "99", "100", "x", "-1", "1000000"]).into(),
        _ => {
            let old: i64 = line[place].parse().unwrap_or(0);
            line[place] = (old + random.pick(&[-1, 1, 2])).max(0).to_string();
        }
    }
    joined(&lines, &mut || " ".into())
}

/// One byte changed, left out or put in; or the text cut off.
fn bytes_changed(random: &mut Random, text: &str) -> Vec<u8> {
    let mut bytes = text.as_bytes().to_vec();
    let at = random.below(bytes.len());
    match random.below(5) {
        0 => drop(bytes.remove(at)),
        1 => bytes.insert(at, random.pick(b" \n0129\t-\r\x00\xff")),
        2 => bytes[at] = random.pick(b" \n0129\t-\r\x00\xff"),
        3 => bytes.truncate(at),
        _ => bytes[at] ^= 1 << random.below(8),
    }
    bytes
}

/// All matrices of up to two columns and rows: their texts, and these with every number put to 0 to 3, and every two numbers.
fn small_texts(comparison: &mut Comparison, both: bool) {
    for (n, count) in [(1, 1), (1, 2), (2, 1), (2, 2)] {
        for rows in all_lists(1 << n, count) {
            let lines = lines_of(&text(n, &rows));
            let places: Vec<(usize, usize)> =
                (0..lines.len()).flat_map(|line| (0..lines[line].len()).map(move |at| (line, at))).collect();
            for (i, &(line, at)) in places.iter().enumerate() {
                let others = if both { &places[i..] } else { &places[i..=i] };
                for &(other_line, other_at) in others {
                    for values in all_lists(4, 2) {
                        let mut changed = lines.clone();
                        changed[line][at] = values[0].to_string();
                        changed[other_line][other_at] = values[1].to_string();
                        read(comparison, joined(&changed, &mut || " ".into()).as_bytes());
                    }
                }
            }
        }
    }
}

/// Writing in rooms about the length of the text, and with each refusal and the next.
fn write_at_bounds(comparison: &mut Comparison, random: &mut Random) {
    let (n, rows) = some_rows(random);
    let size = text(n, &rows).len();
    for room in [0, 1, size / 2, size - 1, size, size + 1, size + 40] {
        comparison.agree(asked_write(n as u64, &rows, room, FIXED));
    }
    for room in [0, 100_000] {
        comparison.agree(asked_write(n as u64, &[], room, FIXED));
        let other = random.pick(&[0, 65, 66, 1 << 32, u64::MAX]);
        comparison.agree(asked_write(other, &rows, room, FIXED));
        comparison.agree(asked_write(other, &[], room, FIXED));
        let mut beyond = rows.clone();
        beyond[random.below(rows.len())] |= 1 << random.pick(&[n.min(63), 63]);
        comparison.agree(asked_write(n as u64, &beyond, room, FIXED));
        beyond.resize(random.pick(&[64, 65, 100]), random.pick(&[0, 1, u64::MAX]));
        comparison.agree(asked_write(n as u64, &beyond, room, FIXED));
        comparison.agree(asked_write(other, &beyond, room, FIXED));
        let sound = matrix(random);
        let bad = spoiled(random, sound);
        comparison.agree(asked_write(bad.n, &bad.rows, room, FIXED));
    }
}

/// Runs of fixed use at lengths about their own; more rows lent than the table has.
fn shapes(comparison: &mut Comparison) {
    for code in 0..4 * 3 * 3 * 2 {
        let table = [TABLE, 0, TABLE - 1, TABLE + 6][code % 4];
        let (counts, place) = (code / 4 % 3 + 1, code / 12 % 3);
        let rooms = Rooms { counts, place, single: code / 36, ..FIXED };
        for text in ["1 1\n1 1\n1\n1\n1\n1\n", "1 1\n1 1\n1\n1\n1\n2\n", ""] {
            comparison.agree(asked_read(text.as_bytes(), table, rooms));
        }
        comparison.agree(asked_write(2, &[3, 1], 100, rooms));
        comparison.agree(asked_write(2, &[4], 0, rooms));
        comparison.agree(asked_write(65, &[], 0, rooms));
    }
}

pub fn run(comparison: &mut Comparison, random: &mut Random, count: usize) {
    comparison.begin("alist texts");
    shapes(comparison);
    for text in AWKWARD {
        read(comparison, text.as_bytes());
    }
    small_texts(comparison, count > 0);
    more(comparison, random, count.max(10));
}

/// So many random matrices: written, read back, written beyond our form, changed and damaged.
pub fn more(comparison: &mut Comparison, random: &mut Random, count: usize) {
    comparison.begin("alist texts");
    for _ in 0..count {
        let (n, rows) = some_rows(random);
        let own = text(n, &rows);
        comparison.agree(asked_write(n as u64, &rows, own.len() + random.below(3), FIXED));
        assert_eq!(read(comparison, own.as_bytes()), DONE, "{own}");
        let other = beyond_our_form(random, &own);
        assert_eq!(read(comparison, other.as_bytes()), DONE, "{other}");
        for _ in 0..6 {
            let base = random.pick(&[&own, &other]);
            let mut changed = numbers_changed(random, base);
            if random.one_in(3) {
                changed = numbers_changed(random, &changed);
            }
            read(comparison, changed.as_bytes());
            read(comparison, &bytes_changed(random, &own));
        }
        if random.one_in(4) {
            write_at_bounds(comparison, random);
        }
    }
}
