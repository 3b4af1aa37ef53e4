//! Single precision in whole numbers: what the bits of an f32 mean, products rounded once, and what is at most what. No operation
//! of the processor's floating point is used.

/// What the bits of an f32 mean: not a number, or a sign with a size.
#[derive(Clone, Copy, Debug, PartialEq, Eq)]
pub enum Float {
    NotANumber,
    Is { negative: bool, size: Size },
}

/// A size of zero or more: `digits` times 2^`exponent`, or beyond every finite one.
#[derive(Clone, Copy, Debug)]
pub enum Size {
    Finite { digits: u64, exponent: i32 },
    Infinite,
}

/// Digits of an f32, the exponent of its last one at the least, and that of the largest finite ones.
const DIGITS: u32 = 24;
const LEAST_EXPONENT: i32 = -149;
const MOST_EXPONENT: i32 = 104;

pub const INFINITY: u32 = 0x7f80_0000;
pub const NEGATIVE: u32 = 0x8000_0000;

/// The meaning of the bits: a sign, eight bits of exponent, 23 of fraction.
pub fn meaning(bits: u32) -> Float {
    let (negative, exponent, fraction) = (bits >> 31 == 1, bits >> 23 & 255, u64::from(bits & 0x7f_ffff));
    let size = match (exponent, fraction) {
        (255, 0) => Size::Infinite,
        (255, _) => return Float::NotANumber,
        (0, _) => Size::Finite { digits: fraction, exponent: LEAST_EXPONENT },
        _ => Size::Finite { digits: fraction | 1 << 23, exponent: LEAST_EXPONENT + exponent as i32 - 1 },
    };
    Float::Is { negative, size }
}

impl Size {
    pub fn is_zero(self) -> bool {
        matches!(self, Size::Finite { digits: 0, .. })
    }

    pub fn is_finite(self) -> bool {
        matches!(self, Size::Finite { .. })
    }

    /// Whether this is at most another: by the place of the first digit, and where that is one, by the digits from there on.
    pub fn at_most(self, other: Size) -> bool {
        let ((digits, exponent), (other_digits, other_exponent)) = match (self, other) {
            (_, Size::Infinite) => return true,
            (Size::Infinite, _) => return false,
            (Size::Finite { digits, exponent }, Size::Finite { digits: d, exponent: e }) => {
                ((digits, exponent), (d, e))
            }
        };
        if digits == 0 || other_digits == 0 {
            return digits == 0;
        }
        let first = |digits: u64, exponent: i32| 63 - digits.leading_zeros() as i32 + exponent;
        let (mine, others) = (first(digits, exponent), first(other_digits, other_exponent));
        if mine != others {
            return mine < others;
        }
        digits << digits.leading_zeros() <= other_digits << other_digits.leading_zeros()
    }

    /// So many times this, rounded once to the nearest f32, of two equally near to the even one; beyond the largest by half of its last
    /// place or more there is only infinity.
    pub fn times(self, factor: u64) -> Size {
        let Size::Finite { digits, exponent } = self else { return Size::Infinite };
        let product = digits * factor;
        let over = (64 - product.leading_zeros()).saturating_sub(DIGITS);
        let (kept, cut) = (product >> over, product & ((1 << over) - 1));
        let half = (1 << over) >> 1;
        let up = over > 0 && (cut > half || cut == half && kept % 2 == 1);
        let (mut kept, mut exponent) = (kept + u64::from(up), exponent + over as i32);
        if kept == 1 << DIGITS {
            (kept, exponent) = (kept / 2, exponent + 1);
        }
        let too_large = kept >> (DIGITS - 1) == 1 && exponent > MOST_EXPONENT;
        if too_large {
            Size::Infinite
        } else {
            Size::Finite { digits: kept, exponent }
        }
    }
}

impl PartialEq for Size {
    fn eq(&self, other: &Size) -> bool {
        self.at_most(*other) && other.at_most(*self)
    }
}

impl Eq for Size {}
