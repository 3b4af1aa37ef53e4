//! Random, damaged and awkward sheets.

use crate::asked::{self, Rooms, FIXED};
use crate::comparison::Comparison;
use crate::header::{listing_room, rooms_most};
use crate::model::{DONE, LINE_MOST};
use crate::random::{matrix, samples, Random};
use crate::sheet::SHEET_MOST;
use crate::words::printed;

/// Sheets that stand just inside or outside of the grammar.
const AWKWARD: [&str; 102] = [
    "",
    "\n",
    "cover",
    "cover\n",
    "cover\t1\tG\tfirst",
    "cover\t1\tG\tfirst\n",
    "cover\t1\tG\tfirst\nend",
    "cover\t1\tG\tfirst\nend\n",
    "cover\t1\tG\tfirst\nend\n\n",
    "cover\t1\tG\tfirst\nend\nend\n",
    "cover\t1\tG\tfirst\nend\nx",
    "cover\t1\tG\tfirst\nend\t\n",
    "cover\t1\tG\tfirst\r\nend\r\n",
    "cover\t01\tG\tfirst\nend\n",
    "cover\t0\tG\tfirst\nend\n",
    "cover\t0\tG\tfirst\nbad\n",
    "cover\t65\tG\tlast\nbad\n",
    "cover\t999\tG\tlast\nend\n",
    "cover\t1000\tG\tlast\nend\n",
    "cover\t-1\tG\tlast\nend\n",
    "cover\t+1\tG\tlast\nend\n",
    "cover\t\tG\tlast\nend\n",
    "cover\t1\tg\tlast\nend\n",
    "cover\t1\tGG\tlast\nend\n",
    "cover\t1\tH\tLast\nend\n",
    "cover\t1\tH\tlast\t\nend\n",
    "cover\t1\tH\tlast \nend\n",
    " cover\t1\tH\tlast\nend\n",
    "Cover\t1\tH\tlast\nend\n",
    "cover 1 H last\nend\n",
    "row\t1\nend\n",
    "cover\t2\tG\tlast\nrow\t10\nblock\t-3\t4\nrow\t01\nend\n",
    "cover\t2\tG\tlast\nrow\t1\nend\n",
    "cover\t2\tG\tlast\nrow\t100\nend\n",
    "cover\t2\tG\tlast\nrow\t12\nend\n",
    "cover\t2\tG\tlast\nrow\nend\n",
    "cover\t2\tG\tlast\nrow\t10\t\nend\n",
    "cover\t2\tG\tlast\nrow\t10\nblock\nblock\t1\nblock\t1\t2\t3\nblock\t9999\t-9999\nblock\t-1\t128\nend\n",
    "cover\t2\tG\tlast\nblock\t-0\t1\nend\n",
    "cover\t2\tG\tlast\nblock\t00\t1\nend\n",
    "cover\t2\tG\tlast\nblock\t10000\t1\nend\n",
    "cover\t2\tG\tlast\nblock\t--1\t1\nend\n",
    "cover\t2\tG\tlast\nblock\t-\t1\nend\n",
    "cover\t2\tG\tlast\nblock\t1\t2\t\nend\n",
    "row\t12\t\n",
    "cover\t1\tG\n",
    "cover\t01\tg\n",
    "cover\t01\tg\tfirst\tlast\n",
    "cover\t01\tg\tnext\n",
    "cover\t2\tG\tlast\ncover\t0\n",
    "cover\t2\tG\tlast\nrow\t12\t\n",
    "cover\t2\tG\tlast\nblock\nrow\t12\t\n",
    "cover\t2\tG\tlast\nblock\t-0\tx\t1\n",
    "cover\t2\tG\tlast\nrow\t12\nword\n",
    "cover\t2\tG\tlast\nend\nrow\t12\t\n",
    "cover\t2\tG\tlast\nend\t0\t1\nend\n",
    "mask\t1\nend\n",
    "mask\t1\ncover\t1\tG\tfirst\nend\n",
    "cover\t1\tG\tfirst\nmask",
    "cover\t1\tG\tfirst\nmask\t1",
    "cover\t1\tG\tfirst\nmask\t1\n",
    "cover\t1\tG\tfirst\nmask\t1\nend\n",
    "cover\t1\tG\tfirst\nmask\t1\nblock\t5\nblock\t-5\nblock\t0\nend\n",
    "cover\t1\tH\tlast\nmask\t1\nblock\t5\nblock\t-5\nblock\t0\nend\n",
    "cover\t2\tG\tlast\nmask\nend\n",
    "cover\t2\tG\tlast\nmask\t\nend\n",
    "cover\t2\tG\tlast\nmask\t1\nend\n",
    "cover\t2\tG\tlast\nmask\t100\nend\n",
    "cover\t2\tG\tlast\nmask\t12\nend\n",
    "cover\t2\tG\tlast\nmask\t10\t\nend\n",
    "cover\t2\tG\tlast\nmask\t12\t10\nend\n",
    "cover\t2\tG\tlast\nMask\t10\nend\n",
    "cover\t2\tG\tlast\nmasks\t10\nend\n",
    "cover\t2\tG\tlast\nmas\t10\nend\n",
    "cover\t2\tG\tlast\nmask \t10\nend\n",
    "cover\t2\tG\tlast\nmask\t10\nmask\t10\nend\n",
    "cover\t2\tG\tlast\nmask\t00\nmask\t12\t\nend\n",
    "cover\t2\tG\tlast\nmask\t12\nmask\t10\nend\n",
    "cover\t2\tG\tlast\nrow\t11\nmask\t10\nend\n",
    "cover\t2\tG\tlast\nrow\t11\nmask\n",
    "cover\t2\tG\tlast\nrow\t11\nblock\t1\t-1\nmask\t10\nend\n",
    "cover\t2\tG\tlast\nheard\t1\t1\t-1\nmask\t10\nend\n",
    "cover\t2\tG\tlast\nend\nmask\t10\n",
    "cover\t2\tG\tlast\nmask\t10\ncover\t2\tG\tlast\nend\n",
    "cover\t2\tG\tlast\nmask\t10\nrow\t11\nblock\t1\t-2\nblock\t1\t1\nblock\t1\nend\n",
    "cover\t2\tG\tfirst\nmask\t10\nrow\t11\nheard\t1\t1\t-2\nheard\t2\t1\t1\nheard\t2\t9\t9\nend\n",
    "cover\t0\tG\tfirst\nmask\t\nend\n",
    "cover\t65\tG\tfirst\nmask\t1\nend\n",
    "cover\t1\tH\tlast\nheard\nend\n",
    "cover\t1\tH\tlast\nheard\t\nend\n",
    "cover\t1\tH\tlast\nheard\t0\nend\n",
    "cover\t1\tH\tlast\nheard\t65535\t5\nheard\t0\t-5\nheard\t0\t7\nheard\t40000\t0\nheard\t3\t1\nend\n",
    "cover\t1\tH\tlast\nheard\t65536\t5\nend\n",
    "cover\t1\tH\tlast\nheard\t00001\t5\nend\n",
    "cover\t1\tH\tlast\nheard\t100000\t5\nend\n",
    "cover\t1\tH\tlast\nheard\t-1\t5\nend\n",
    "cover\t1\tH\tlast\nheard\tx\t-0\nend\n",
    "cover\t1\tH\tlast\nheard\t1\t-0\nend\n",
    "cover\t1\tH\tlast\nheard\t1\t5\nblock\t5\nend\n",
    "cover\t1\tH\tlast\nblock\t5\nheard\t1\t5\nend\n",
    "cover\t1\tH\tlast\nheard\t1\t5\nrow\t1\nend\n",
    "heard\t1\t5\nend\n",
];

/// Rooms of the header's sizes are enough for every sheet.
fn list(comparison: &mut Comparison, sheet: &[u8]) {
    let (metrics, decisions) = rooms_most();
    let call = asked::listing(sheet, metrics, decisions, listing_room(sheet), FIXED);
    assert_eq!(comparison.agree(call).0, DONE, "{}", sheet.escape_ascii());
    comparison.agree(asked::plate_of_sheet(sheet, FIXED));
}

/// Short, exact and long rooms for a sheet whose listing has so many lines.
fn list_in_rooms(comparison: &mut Comparison, sheet: &[u8], lines: usize) {
    let room = LINE_MOST * lines;
    for (metrics, decisions, room) in [
        (8191, 4096, room),
        (8192, 4095, room),
        (8192, 4096, room - 1),
        (8192, 4096, room),
        (8191, 4095, 0),
        (8192, 4095, 0),
        (9000, 5000, room + 1),
    ] {
        for single in 0..3 {
            let rooms = Rooms { single, ..FIXED };
            comparison.agree(asked::listing(sheet, metrics, decisions, room, rooms));
        }
    }
}

/// A sheet in order, but for matrices that are too wide and blocks that meet 6 or 7.
pub fn sheet(random: &mut Random) -> Vec<u8> {
    let matrix = matrix(random);
    let n = matrix.n as usize;
    let (kind, order) = (random.pick(&["G", "H"]), random.pick(&["first", "last"]));
    let mut text = format!("cover\t{n}\t{kind}\t{order}\n");
    if random.one_in(2) {
        text += &format!("mask\t{}\n", printed(matrix.mask, n));
    }
    for row in &matrix.rows {
        text += &format!("row\t{}\n", printed(*row, n));
    }
    let heard = random.one_in(2);
    let mut counter = random.pick(&[0, 5, 65_530, 65_535, 40_000]);
    for _ in 0..random.below(if heard { 9 } else { 4 }) {
        let count = if random.one_in(6) { random.below(70) } else { n };
        let mut block = samples(random, count);
        if random.one_in(5) && count > 0 {
            block[random.below(count)] = random.pick(&[2048, -2048, 2999, -9999]);
        }
        let fields: String = block.iter().map(|y| format!("\t{y}")).collect();
        counter = (counter + random.pick(&[0, 1, 1, 1, 2, 7, 32_767, 32_768, 65_535, 65_530])) % 65_536;
        text += &if heard { format!("heard\t{counter}{fields}\n") } else { format!("block{fields}\n") };
    }
    (text + "end\n").into_bytes()
}

/// The sheet with its mask and every row and block reversed, under the other word of the cover.
pub fn turned(sheet: &str) -> String {
    let turn = |line: &str| {
        let mut fields: Vec<String> = line.split('\t').map(String::from).collect();
        match fields[0].as_str() {
            "cover" => fields[3] = if fields[3] == "first" { "last" } else { "first" }.into(),
            "mask" | "row" => fields[1] = fields[1].chars().rev().collect(),
            "block" => fields[1..].reverse(),
            "heard" => fields[2..].reverse(),
            _ => {}
        }
        fields.join("\t") + "\n"
    };
    sheet.lines().map(turn).collect()
}

/// One small damage somewhere in the sheet.
fn damaged(random: &mut Random, mut sheet: Vec<u8>) -> Vec<u8> {
    let at = random.below(sheet.len());
    match random.below(6) {
        0 => drop(sheet.remove(at)),
        1 => sheet.insert(at, random.pick(b"\t\n01-9 xGHrbcem\x00\xff")),
        2 => sheet[at] = random.pick(b"\t\n01-92 xGHrbcem\x00\xff\r"),
        3 => sheet.truncate(at),
        4 => sheet[at] ^= 1 << random.below(8),
        _ => return lines_moved(random, &sheet),
    }
    sheet
}

/// A line left out, doubled or moved.
fn lines_moved(random: &mut Random, sheet: &[u8]) -> Vec<u8> {
    let mut lines: Vec<&[u8]> = sheet.split_inclusive(|&b| b == b'\n').collect();
    let (from, to) = (random.below(lines.len()), random.below(lines.len()));
    match random.below(3) {
        0 => drop(lines.remove(from)),
        1 => lines.insert(to, lines[from]),
        _ => lines.swap(from, to),
    }
    lines.concat()
}

/// Sheets about the greatest length, and about the greatest number of rows.
fn long_sheets() -> Vec<Vec<u8>> {
    let mut sheets = Vec::new();
    for length in [SHEET_MOST - 1, SHEET_MOST, SHEET_MOST + 1, 2 * SHEET_MOST] {
        let mut sheet = b"cover\t1\tH\tlast\n".to_vec();
        while sheet.len() + 4 + 6 + 8 < length {
            sheet.extend(b"block\n");
        }
        sheet.extend(b"block\t");
        sheet.resize(length - 5, b'1');
        sheet.extend(b"\nend\n");
        sheets.push(sheet);
        sheets.push(vec![b'x'; length]);
    }
    for (rows, kind) in [(63, "G"), (64, "H"), (65, "G"), (65, "H"), (400, "G")] {
        let row = "row\t0110\n".repeat(rows);
        sheets.push(format!("cover\t4\t{kind}\tfirst\n{row}block\t1\t2\t3\t4\nend\n").into_bytes());
        sheets.push(format!("cover\t4\t{kind}\tfirst\n{row}block\t1\t2\t3\t4\n").into_bytes());
    }
    sheets
}

pub fn run(comparison: &mut Comparison, random: &mut Random, count: usize) {
    comparison.begin("sheets");
    AWKWARD.iter().for_each(|text| list(comparison, text.as_bytes()));
    long_sheets().iter().for_each(|sheet| list(comparison, sheet));
    list_in_rooms(comparison, b"", 1);
    list_in_rooms(comparison, b"cover\t2\tG\tlast\nrow\t10\nblock\t-3\t4\nblock\t1\nend\n", 5);
    list_in_rooms(comparison, b"cover\t2\tG\tlast\nmask\t01\nrow\t10\nblock\t-3\t4\nend\n", 4);
    list_in_rooms(comparison, b"cover\t2\tG\tlast\nrow\t10\nheard\t7\t-3\t4\nheard\t7\t1\t1\nend\n", 6);
    more(comparison, random, count);
}

/// So many random sheets, each with damages.
pub fn more(comparison: &mut Comparison, random: &mut Random, count: usize) {
    comparison.begin("sheets");
    for _ in 0..count {
        let mut text = sheet(random);
        list(comparison, &text);
        for _ in 0..6 {
            let bad = damaged(random, text.clone());
            list(comparison, &bad);
            if random.one_in(8) && !bad.is_empty() {
                text = bad;
            }
        }
    }
}
