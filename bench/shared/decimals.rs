// Decimals of 18 digits in plain Rust over u128, each operation rounded to a side.

/// The value m * 10 ^ e.
#[repr(C)]
#[derive(Clone, Copy, PartialEq, Eq, Debug)]
pub struct Number {
    pub m: u64,
    pub e: i16,
}

const LEAST: u64 = 10u64.pow(17);
const LIMIT: u64 = 10u64.pow(18);

// The 18 digits at the front of q, and whether anything stands behind them.
fn front(q: u128, e: i16, up: bool, more: bool) -> Number {
    if q == 0 {
        return Number { m: 0, e: 0 };
    }
    let digits = q.ilog10() + 1;
    if digits <= 18 {
        let places = 18 - digits;
        return Number {
            m: q as u64 * 10u64.pow(places),
            e: e - places as i16,
        };
    }
    let places = digits - 18;
    let unit = 10u128.pow(places);
    let m = (q / unit) as u64;
    let m = if up && (more || q % unit != 0) {
        m + 1
    } else {
        m
    };
    if m == LIMIT {
        Number {
            m: LEAST,
            e: e + places as i16 + 1,
        }
    } else {
        Number {
            m,
            e: e + places as i16,
        }
    }
}

fn mul(m: u64, d: i16, n: u64, e: i16, up: bool) -> Number {
    front(m as u128 * n as u128, d + e, up, false)
}

fn div(m: u64, d: i16, n: u64, e: i16, up: bool) -> Number {
    let top = m as u128 * 10u128.pow(19);
    let q = top / n as u128;
    front(q, d - e - 19, up, q * n as u128 != top)
}

fn add(m: u64, d: i16, n: u64, e: i16, up: bool) -> Number {
    if m == 0 {
        return Number { m: n, e };
    }
    if n == 0 {
        return Number { m, e: d };
    }
    let (a, d, b, e) = if d >= e { (m, d, n, e) } else { (n, e, m, d) };
    let gap = (d - e) as u32;
    if gap <= 19 {
        front(a as u128 * 10u128.pow(gap) + b as u128, e, up, false)
    } else {
        front(a as u128 * 100, d - 2, up, true)
    }
}

#[inline(never)]
pub extern "C" fn mul_dn(m: u64, d: i16, n: u64, e: i16) -> Number {
    mul(m, d, n, e, false)
}
#[inline(never)]
pub extern "C" fn mul_up(m: u64, d: i16, n: u64, e: i16) -> Number {
    mul(m, d, n, e, true)
}
#[inline(never)]
pub extern "C" fn div_dn(m: u64, d: i16, n: u64, e: i16) -> Number {
    div(m, d, n, e, false)
}
#[inline(never)]
pub extern "C" fn div_up(m: u64, d: i16, n: u64, e: i16) -> Number {
    div(m, d, n, e, true)
}
#[inline(never)]
pub extern "C" fn add_dn(m: u64, d: i16, n: u64, e: i16) -> Number {
    add(m, d, n, e, false)
}
#[inline(never)]
pub extern "C" fn add_up(m: u64, d: i16, n: u64, e: i16) -> Number {
    add(m, d, n, e, true)
}
#[inline(never)]
pub extern "C" fn of_units_dn(units: u64, places: u16) -> Number {
    front(units as u128, -(places as i16), false, false)
}
#[inline(never)]
pub extern "C" fn of_units_up(units: u64, places: u16) -> Number {
    front(units as u128, -(places as i16), true, false)
}

/// So many units of 10 ^ -places as a decimal.
pub fn of_wide_units(units: u128, places: i16, up: bool) -> Number {
    front(units, -places, up, false)
}

/// So many units of 10 ^ -s, rounded to a side, where they are fewer than 2^126.
pub fn wide_units(m: u64, e: i16, s: u32, up: bool) -> Option<u128> {
    let shift = e as i32 + s as i32;
    if shift >= 0 {
        10u128
            .checked_pow(shift as u32)
            .and_then(|unit| unit.checked_mul(m as u128))
            .filter(|n| *n < 1 << 126)
    } else if shift <= -19 {
        Some((up && m > 0) as u128)
    } else {
        let unit = 10u64.pow(-shift as u32);
        Some((m / unit + (up && m % unit != 0) as u64) as u128)
    }
}

fn units(m: u64, e: i16, s: u32, up: bool) -> u64 {
    wide_units(m, e, s, up).map_or(0, |n| n as u64)
}
#[inline(never)]
pub extern "C" fn floor_units(m: u64, e: i16, s: u32) -> u64 {
    units(m, e, s, false)
}
#[inline(never)]
pub extern "C" fn ceil_units(m: u64, e: i16, s: u32) -> u64 {
    units(m, e, s, true)
}
