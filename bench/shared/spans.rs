// Bounds of numbers in plain Rust: each operation rounds one down and one up.
use crate::decimals::{
    Number, add_dn, add_up, div_dn, div_up, mul_dn, mul_up, of_units_dn, wide_units,
};

/// The number digits * 10 ^ exp, above 0.
#[repr(C)]
#[derive(Clone, Copy, PartialEq, Eq, Debug)]
pub struct Word {
    pub digits: u64,
    pub exp: i16,
}

pub const ONE: Word = Word { digits: 1, exp: 0 };

/// Bounds of a number.
#[derive(Clone, Copy)]
pub struct Span {
    pub lo: Number,
    pub hi: Number,
}

pub fn exactly(number: Number) -> Span {
    Span {
        lo: number,
        hi: number,
    }
}

pub fn word(w: Word) -> Span {
    let number = of_units_dn(w.digits, 0);
    exactly(Number {
        m: number.m,
        e: number.e + w.exp,
    })
}

impl Span {
    pub fn times(self, b: Span) -> Span {
        Span {
            lo: mul_dn(self.lo.m, self.lo.e, b.lo.m, b.lo.e),
            hi: mul_up(self.hi.m, self.hi.e, b.hi.m, b.hi.e),
        }
    }

    pub fn plus(self, b: Span) -> Span {
        Span {
            lo: add_dn(self.lo.m, self.lo.e, b.lo.m, b.lo.e),
            hi: add_up(self.hi.m, self.hi.e, b.hi.m, b.hi.e),
        }
    }

    pub fn over(self, b: Span) -> Span {
        Span {
            lo: div_dn(self.lo.m, self.lo.e, b.hi.m, b.hi.e),
            hi: div_up(self.hi.m, self.hi.e, b.lo.m, b.lo.e),
        }
    }

    /// In units of 10 ^ -s; none where the upper bound reaches the limit.
    pub fn units_below(self, s: u32, limit: u128) -> Option<(u128, u128)> {
        let lo = wide_units(self.lo.m, self.lo.e, s, false)?;
        let hi = wide_units(self.hi.m, self.hi.e, s, true).filter(|hi| *hi < limit)?;
        Some((lo, hi))
    }
}
