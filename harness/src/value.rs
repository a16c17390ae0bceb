//! A model of the values of expressions: document 01's "How the passes behave"
//! and what value.rs and expression.rs evaluate to, on values of our own.
//!
//! Folding and the reader of rows use it. Floats are bit patterns. What Add,
//! Divide, Subtract, Multiply, Negate and SquareRoot give gets the one NaN;
//! Identity hands its value back as it is, so that a table's NaN of another
//! pattern passes through.

use std::cmp::Ordering;

use crate::tree::{Val, tag};

/// Why an expression has no value: document 01's refusals 11 to 13.
#[derive(Clone, Copy, Debug, PartialEq)]
pub enum Fault {
    /// 11: an Integer outside 64 bits. `panics` where the Rust does: negating
    /// the smallest Integer, or dividing it by -1.
    Overflow { panics: bool },
    /// 12: an Integer divided by Integer 0.
    Zero,
    /// 13: operand kinds don't fit.
    Kinds,
}

impl Fault {
    /// Document 01's number.
    pub fn number(self) -> u64 {
        match self {
            Fault::Overflow { .. } => 11,
            Fault::Zero => 12,
            Fault::Kinds => 13,
        }
    }
}

/// Texts by reference: Val::Str(r) is compared by the bytes of r.
pub trait Texts {
    /// The bytes of a reference.
    fn text(&self, reference: u32) -> &[u8];
}

impl Texts for [u8] {
    fn text(&self, reference: u32) -> &[u8] {
        crate::tree::text_of(self, reference)
    }
}

fn float(bits: u64) -> f64 {
    f64::from_bits(bits)
}

/// The value of a one-operand operator.
pub fn one(op: u8, v: Val) -> Result<Val, Fault> {
    use Val::*;
    Ok(match (op, v) {
        (tag::NOT, Bool(b)) => Bool(!b),
        (tag::NOT, Null) => Null,
        (tag::IS_NULL, v) => Bool(v == Null),
        (tag::IS_NAN, Float(f)) => Bool(float(f).is_nan()),
        (tag::IS_NAN, Null) => Null,
        (tag::IDENTITY, v @ (Int(_) | Float(_) | Null)) => v,
        (tag::NEGATE, Int(i)) => Int(i.checked_neg().ok_or(Fault::Overflow { panics: true })?),
        (tag::NEGATE, Float(f)) => Val::float(-float(f)),
        (tag::NEGATE, Null) => Null,
        (tag::SQUARE_ROOT, Int(i @ 0..)) => Float(root(nearest(i).to_bits())),
        (tag::SQUARE_ROOT, Float(f)) => Float(root(f)),
        (tag::SQUARE_ROOT, Null) => Null,
        _ => return Err(Fault::Kinds),
    })
}

/// The value of a two-operand operator.
pub fn two<T: Texts + ?Sized>(op: u8, l: Val, r: Val, texts: &T) -> Result<Val, Fault> {
    use Val::*;
    Ok(match op {
        tag::AND | tag::OR => {
            // False settles an AND, true an OR, beside Null too.
            let settles = op == tag::OR;
            match (l, r) {
                (Bool(l), Bool(r)) => Bool(if settles { l || r } else { l && r }),
                (Bool(b), Null) | (Null, Bool(b)) if b == settles => Bool(settles),
                (Bool(_) | Null, Bool(_) | Null) => Null,
                _ => return Err(Fault::Kinds),
            }
        }
        tag::EQUAL | tag::GREATER_THAN | tag::LESS_THAN => {
            if l == Null || r == Null {
                return Ok(Null);
            }
            let wanted = match op {
                tag::EQUAL => Ordering::Equal,
                tag::GREATER_THAN => Ordering::Greater,
                _ => Ordering::Less,
            };
            // None is unordered, as with a NaN.
            Bool(compare(l, r, texts)? == Some(wanted))
        }
        tag::ADD => match (l, r) {
            (Int(l), Int(r)) => Int(l.checked_add(r).ok_or(Fault::Overflow { panics: false })?),
            (Int(_) | Float(_), Int(_) | Float(_)) => Val::float(double(l) + double(r)),
            (Int(_) | Float(_) | Null, Int(_) | Float(_) | Null) => Null,
            _ => return Err(Fault::Kinds),
        },
        tag::SUBTRACT => match (l, r) {
            (Int(l), Int(r)) => Int(l.checked_sub(r).ok_or(Fault::Overflow { panics: false })?),
            (Int(_) | Float(_), Int(_) | Float(_)) => Val::float(double(l) - double(r)),
            (Int(_) | Float(_) | Null, Int(_) | Float(_) | Null) => Null,
            _ => return Err(Fault::Kinds),
        },
        tag::MULTIPLY => match (l, r) {
            (Int(l), Int(r)) => {
                let exact = i128::from(l) * i128::from(r);
                Int(i64::try_from(exact).map_err(|_| Fault::Overflow { panics: false })?)
            }
            (Int(_) | Float(_), Int(_) | Float(_)) => Val::float(double(l) * double(r)),
            (Int(_) | Float(_) | Null, Int(_) | Float(_) | Null) => Null,
            _ => return Err(Fault::Kinds),
        },
        tag::DIVIDE => match (l, r) {
            (Int(_), Int(0)) => return Err(Fault::Zero),
            (Int(l), Int(r)) => Int(l.checked_div(r).ok_or(Fault::Overflow { panics: true })?),
            (Int(_) | Float(_), Int(_) | Float(_)) => Val::float(double(l) / double(r)),
            (Int(_) | Float(_) | Null, Int(_) | Float(_) | Null) => Null,
            _ => return Err(Fault::Kinds),
        },
        _ => unreachable!("operator {op}"),
    })
}

/// A number as a double, an Integer rounded to the nearest, ties to even.
fn double(v: Val) -> f64 {
    match v {
        Val::Int(i) => nearest(i),
        Val::Float(f) => float(f),
        _ => unreachable!("a number"),
    }
}

/// Rounds an Integer to the nearest double from its bits, ties to even.
pub fn nearest(i: i64) -> f64 {
    let magnitude = i.unsigned_abs();
    let bits = 64 - magnitude.leading_zeros();
    let rounded = if bits <= 53 {
        magnitude as f64 // exact
    } else {
        let drop = bits - 53;
        let (kept, lost) = (magnitude >> drop, magnitude & ((1 << drop) - 1));
        let half = 1u64 << (drop - 1);
        let up = lost > half || (lost == half && kept & 1 == 1);
        // Both factors are exact, and so is their product.
        (kept + up as u64) as f64 * (1u64 << drop) as f64
    };
    if i < 0 { -rounded } else { rounded }
}

/// The bits of the double nearest to a double's square root, by squares of whole
/// numbers. The root is never in the middle of two doubles, so nothing ties.
pub fn root(bits: u64) -> u64 {
    const SIGN: u64 = 1 << 63;
    const INFINITY: u64 = 0x7FF << 52;
    if bits % SIGN > INFINITY || (bits > SIGN) {
        return crate::tree::NAN;
    }
    if bits % SIGN == 0 || bits == INFINITY {
        return bits;
    }
    // The number is digits * 2^(exponent - 1074), digits of 53 bits.
    let (mut digits, mut exponent) = match bits >> 52 {
        0 => (bits, 0),
        field => (bits & ((1 << 52) - 1) | 1 << 52, field as i32 - 1),
    };
    while digits < 1 << 52 {
        (digits, exponent) = (digits << 1, exponent - 1);
    }
    let odd = exponent.rem_euclid(2) as u32;
    // The largest double that isn't above the root, in digits of 53 bits.
    let square = u128::from(digits) << (52 + odd);
    let mut low = 1u64 << 52;
    let mut step = 1u64 << 51;
    while step > 0 {
        if u128::from(low + step) * u128::from(low + step) <= square {
            low += step;
        }
        step >>= 1;
    }
    // The middle of it and the next, doubled and squared, against the number.
    let middle = u128::from(2 * low + 1);
    let low = low + u64::from(middle * middle < square << 2);
    // 2^(exponent - 1074) is 2^(2 k) times 2^odd, and the root's digits are 52 places below its point.
    let k = (exponent - odd as i32 - 1074 - 52) / 2;
    (((k + 1074) as u64) << 52) + low
}

/// Compares two values of fitting kinds, neither Null; None if unordered.
fn compare<T: Texts + ?Sized>(l: Val, r: Val, texts: &T) -> Result<Option<Ordering>, Fault> {
    use Val::*;
    Ok(match (l, r) {
        (Bool(l), Bool(r)) => Some(l.cmp(&r)),
        (Int(l), Int(r)) => Some(l.cmp(&r)),
        (Int(_) | Float(_), Int(_) | Float(_)) => double(l).partial_cmp(&double(r)),
        (Str(l), Str(r)) => Some(texts.text(l).cmp(texts.text(r))),
        _ => return Err(Fault::Kinds),
    })
}

#[cfg(test)]
mod tests {
    use super::*;

    #[test]
    fn root_is_the_rusts() {
        let mut state = 1u64;
        let mut same = |bits: u64| {
            let rust = crate::tree::pattern(f64::from_bits(bits).sqrt());
            assert_eq!(root(bits), rust, "{bits:016x}");
        };
        for n in 0..300_000u64 {
            state = state.wrapping_mul(6364136223846793005).wrapping_add(1442695040888963407);
            same(state ^ state >> 29);
            same((state ^ state >> 29) >> (n % 64));
            let root = f64::from_bits((state >> 12) | 0x3FF << 52);
            let near = (root * root).to_bits();
            (near - 2..near + 3).for_each(&mut same);
        }
    }

    #[test]
    fn nearest_is_the_cast() {
        let mut state = 1u64;
        for n in 0..200_000u64 {
            state = state.wrapping_mul(6364136223846793005).wrapping_add(1442695040888963407);
            let i = (state ^ state >> 29) as i64 >> (n % 64);
            assert_eq!(nearest(i), i as f64, "{i}");
            let near = (1i64 << (n % 63)).wrapping_add(n as i64 % 17 - 8);
            assert_eq!(nearest(near), near as f64, "{near}");
        }
        assert_eq!(nearest(i64::MIN), i64::MIN as f64);
        assert_eq!(nearest(i64::MAX), i64::MAX as f64);
    }
}
