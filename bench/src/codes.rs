//! The codes that are timed, as generators.

pub struct Code {
    pub name: &'static str,
    pub n: usize,
    pub rows: Vec<u64>,
}

/// The Reed-Muller code of an order, of length 2^m: products of at most so many variables.
fn reed_muller(order: u32, m: u32) -> Vec<u64> {
    let positions = 1u32 << m;
    let product = |mask: u32| (0..positions).filter(|i| i & mask == mask).map(|i| 1u64 << i).sum();
    (0..positions).filter(|mask| mask.count_ones() <= order).map(product).collect()
}

/// The extended Golay code: shifts of its polynomial, and a parity at the end.
fn golay() -> Vec<u64> {
    let shifted = (0..12).map(|i| 0b1100_0111_0101u64 << i);
    shifted.map(|row| row | u64::from(row.count_ones() & 1) << 23).collect()
}

pub fn codes() -> Vec<Code> {
    vec![
        Code { name: "(8,4) Reed-Muller", n: 8, rows: reed_muller(1, 3) },
        Code { name: "(24,12) extended Golay", n: 24, rows: golay() },
        Code { name: "(32,16) Reed-Muller", n: 32, rows: reed_muller(2, 5) },
        Code {
            name: "(24,12) the paper's widest",
            n: 24,
            rows: (0..12).map(|i| 1 << i | 1 << (i + 12)).collect(),
        },
        Code { name: "(64,57) Reed-Muller, few states", n: 64, rows: reed_muller(4, 6) },
        Code {
            name: "(64,52) shifts of one row, many states",
            n: 64,
            rows: (0..52).map(|i| 0b1_0110_0111_0101 << i).collect(),
        },
    ]
}
