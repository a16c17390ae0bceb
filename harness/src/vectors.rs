//! Vectors of value operations, answered by the compiled Rust.
//!
//! One line each: `operation lhs rhs result`, parted by single spaces.
//! Operations: Add Divide Subtract Multiply Equal GreaterThan LessThan And Or
//! (two operands), Identity Negate SquareRoot Not IsNull IsNan Double (one
//! operand, rhs is `-`). Double is the Integer rounded to the nearest double.
//! A value is `N` (Null), `B0`, `B1`, `I` and 16 hex digits (two's complement),
//! `F` and 16 hex digits (the bits), `S` and the text's bytes in hex. A result
//! is a value, every NaN as F7ff8000000000000, or `!11`, `!12`, `!13`. Where
//! the Rust panics (negating the smallest Integer, dividing it by -1) the
//! result is document 01's `!11`.

use crate::original::quietly;
use crate::rng::Rng;
use crate::sql::types::{Expression, Value};
use crate::tree::pattern;

const TWO: [&str; 9] =
    ["Add", "Divide", "Subtract", "Multiply", "Equal", "GreaterThan", "LessThan", "And", "Or"];
const ONE: [&str; 6] = ["Identity", "Negate", "SquareRoot", "Not", "IsNull", "IsNan"];

/// The expression of an operation on constants.
fn expression(op: &str, l: &Value, r: &Value) -> Expression {
    use Expression::*;
    let (l, r): (Box<Expression>, Box<Expression>) = (l.clone().into(), r.clone().into());
    match op {
        "Add" => Add(l, r),
        "Divide" => Divide(l, r),
        "Subtract" => Subtract(l, r),
        "Multiply" => Multiply(l, r),
        "Equal" => Equal(l, r),
        "GreaterThan" => GreaterThan(l, r),
        "LessThan" => LessThan(l, r),
        "And" => And(l, r),
        "Or" => Or(l, r),
        "Identity" => Identity(l),
        "Negate" => Negate(l),
        "SquareRoot" => SquareRoot(l),
        "Not" => Not(l),
        "IsNull" => Is(l, Value::Null),
        "IsNan" => Is(l, Value::Float(f64::NAN)),
        _ => unreachable!("{op}"),
    }
}

/// What the compiled Rust evaluates an operation to, or a refusal's number.
pub fn evaluate(op: &str, l: &Value, r: &Value) -> Result<Value, u64> {
    let e = expression(op, l, r);
    match quietly(|| e.evaluate(None)) {
        Ok(Ok(v)) => Ok(v),
        Ok(Err(err)) => Err(match err.to_string().as_str() {
            "integer overflow" => 11,
            "can't divide by zero" => 12,
            _ => 13,
        }),
        Err(_) => Err(11),
    }
}

fn write(v: &Value) -> String {
    match v {
        Value::Null => "N".to_string(),
        Value::Boolean(b) => format!("B{}", *b as u8),
        Value::Integer(i) => format!("I{:016x}", *i as u64),
        Value::Float(f) => format!("F{:016x}", pattern(*f)),
        Value::String(s) => {
            let hex: String = s.bytes().map(|b| format!("{b:02x}")).collect();
            format!("S{hex}")
        }
    }
}

/// Values that stand at boundaries.
fn awkward() -> Vec<Value> {
    let mut list = vec![Value::Null, false.into(), true.into()];
    let two53 = 1i64 << 53;
    let ints = [
        0,
        1,
        -1,
        2,
        i64::MIN,
        i64::MIN + 1,
        i64::MAX,
        i64::MAX - 1,
        two53 - 1,
        two53,
        two53 + 1,
        two53 + 2,
        two53 + 3,
        -two53 - 1,
        -two53 - 3,
        (1 << 62) + (1 << 8),         // a tie, to even below
        (1 << 62) + (1 << 8) + 1,     // just over it
        (1 << 62) + 3 * (1 << 8),     // a tie, to even above
        (1 << 62) + 3 * (1 << 8) - 1, // just under it
        i64::MAX - 511,               // a tie at the top: to 2^63
        i64::MAX - 512,               // just under it
        i64::MAX - 1_023,             // the largest that is a double
        3_037_000_499,                // the largest whose square is an Integer
        3_037_000_500,
        -3_037_000_500,
        1 << 31,                      // with the next, MIN
        -(1 << 32),
        9_007_199_254_741_001,        // rounded before its root is taken
    ];
    list.extend(ints.map(Value::Integer));
    let floats = [
        0.0,
        -0.0,
        1.0,
        -1.0,
        0.5,
        f64::INFINITY,
        f64::NEG_INFINITY,
        f64::NAN,
        f64::MAX,
        f64::MIN,
        f64::MIN_POSITIVE,
        5e-324,
        -5e-324,
        2.225_073_858_507_201e-308,
        9_007_199_254_740_992.0,
        9_007_199_254_740_994.0,
        9_223_372_036_854_775_808.0,
        -9_223_372_036_854_775_808.0,
        1.0 + f64::EPSILON,
        1.0 - f64::EPSILON / 2.0,
        f64::EPSILON / 2.0,
        1.1,
        1e308,
    ];
    list.extend(floats.map(Value::Float));
    list.extend(["", "a", "b", "ab", "a\0", "é", "z"].map(Value::from));
    list
}

fn random_int(rng: &mut Rng) -> i64 {
    match rng.below(4) {
        // Around a tie: 53 bits kept, a one and zeros behind, perhaps off by one.
        0 => {
            let drop = rng.range(1, 10) as u32;
            let kept = (1u64 << 52) | (rng.next() & ((1 << 52) - 1));
            let i = (kept << drop | 1 << (drop - 1)) as i64;
            let i = i.wrapping_add(rng.range(0, 2) as i64 - 1);
            if rng.percent(50) { i } else { i.wrapping_neg() }
        }
        1 => (rng.next() as i64) >> rng.below(64),
        2 => (1i64 << rng.below(63)).wrapping_add(rng.range(0, 4) as i64 - 2),
        _ => rng.next() as i64,
    }
}

fn random_float(rng: &mut Rng) -> f64 {
    match rng.below(4) {
        0 => f64::from_bits(rng.next()),
        1 => {
            // Subnormals and the least normal exponents.
            let bits = (rng.next() & 0x800F_FFFF_FFFF_FFFF) | (rng.below(3) as u64) << 52;
            f64::from_bits(bits)
        }
        2 => random_int(rng) as f64,
        _ => f64::from_bits(
            (rng.next() & 0x800F_FFFF_FFFF_FFFF) | (rng.range(1_000, 1_090) as u64) << 52,
        ),
    }
}

/// Two random values, often numbers that are near each other.
fn random_pair(rng: &mut Rng) -> (Value, Value) {
    match rng.below(10) {
        8 => {
            // A product near 2^63, of either sign.
            let a = (rng.next() >> rng.below(63)) as i64 | 1;
            let b = (i64::MAX / a).wrapping_add(rng.range(0, 4) as i64 - 2);
            (if rng.percent(50) { a } else { a.wrapping_neg() }.into(), b.into())
        }
        9 => {
            // A square and its neighbours, whose root is near a double or the middle of two.
            let half = f64::from_bits((rng.next() & 0x001F_FFFF_FFFF_FFFF) + (0x3FE << 52));
            let bits = (half * half).to_bits().wrapping_add(rng.range(0, 4) as u64).wrapping_sub(2);
            (f64::from_bits(bits).into(), half.into())
        }
        0 => (random_int(rng).into(), random_int(rng).into()),
        1 => {
            let i = random_int(rng);
            // The double beside it, and its neighbours.
            let bits = (i as f64).to_bits().wrapping_add(rng.range(0, 2) as u64).wrapping_sub(1);
            (i.into(), f64::from_bits(bits).into())
        }
        2 => (random_int(rng).into(), random_float(rng).into()),
        3 => (random_float(rng).into(), random_int(rng).into()),
        4 | 5 => {
            // Near exponents: sums and quotients that round and cancel.
            let a = random_float(rng);
            let exponent = ((a.to_bits() >> 52 & 0x7FF) as i64 + rng.range(0, 112) as i64 - 56)
                .clamp(0, 2_046);
            let b = f64::from_bits((rng.next() & 0x800F_FFFF_FFFF_FFFF) | (exponent as u64) << 52);
            (a.into(), b.into())
        }
        6 => {
            let a = random_float(rng);
            let b =
                f64::from_bits(a.to_bits().wrapping_add(rng.range(0, 4) as u64).wrapping_sub(2));
            (a.into(), if rng.percent(50) { b } else { -b }.into())
        }
        _ => (random_float(rng).into(), random_float(rng).into()),
    }
}

/// Writes the vectors: every pair of awkward values, then `count` random pairs.
pub fn vectors(seed: u64, count: u64, mut put: impl FnMut(String)) {
    let list = awkward();
    let both = |l: &Value, r: &Value, put: &mut dyn FnMut(String)| {
        for op in TWO {
            put(format!("{op} {} {} {}", write(l), write(r), result(evaluate(op, l, r))));
        }
    };
    for l in &list {
        for r in &list {
            both(l, r, &mut put);
        }
        single(l, &mut put);
    }
    let mut rng = Rng::case(seed, 0);
    for _ in 0..count {
        let (l, r) = random_pair(&mut rng);
        both(&l, &r, &mut put);
        single(&l, &mut put);
    }
}

fn result(r: Result<Value, u64>) -> String {
    r.map_or_else(|n| format!("!{n}"), |v| write(&v))
}

fn single(v: &Value, put: &mut dyn FnMut(String)) {
    for op in ONE {
        put(format!("{op} {} - {}", write(v), result(evaluate(op, v, &Value::Null))));
    }
    if let Value::Integer(i) = v {
        put(format!("Double {} - {}", write(v), write(&Value::Float(*i as f64))));
    }
}

#[cfg(test)]
mod tests {
    use super::*;
    use crate::tree::{Val, tag};
    use crate::value;

    /// The model's values against the compiled Rust, with texts as references.
    #[test]
    fn model_gives_the_same() {
        crate::original::silence_panics();
        let text = std::cell::RefCell::new(Vec::<u8>::new());
        let val = |v: &Value| match v {
            Value::Null => Val::Null,
            Value::Boolean(b) => Val::Bool(*b),
            Value::Integer(i) => Val::Int(*i),
            Value::Float(f) => Val::float(*f),
            Value::String(s) => {
                let mut text = text.borrow_mut();
                let at = text.len() as u32;
                text.extend(s.bytes());
                Val::Str(at | (s.len() as u32) << 16)
            }
        };
        let ops = [
            tag::ADD,
            tag::DIVIDE,
            tag::SUBTRACT,
            tag::MULTIPLY,
            tag::EQUAL,
            tag::GREATER_THAN,
            tag::LESS_THAN,
            tag::AND,
            tag::OR,
        ];
        let singles =
            [tag::IDENTITY, tag::NEGATE, tag::SQUARE_ROOT, tag::NOT, tag::IS_NULL, tag::IS_NAN];
        let mut pairs: Vec<(Value, Value)> = Vec::new();
        for l in awkward() {
            pairs.extend(awkward().into_iter().map(|r| (l.clone(), r)));
        }
        let mut rng = Rng::case(3, 0);
        pairs.extend((0..100_000).map(|_| random_pair(&mut rng)));
        for (l, r) in &pairs {
            text.borrow_mut().clear();
            let (a, b) = (val(l), val(r));
            for (op, name) in ops.iter().zip(TWO) {
                let model = value::two(*op, a, b, &text.borrow()[..]).map_err(|f| f.number());
                let rust = evaluate(name, l, r).map(|v| val(&v));
                assert_eq!(model, rust, "{name} {l:?} {r:?}");
            }
            for (op, name) in singles.iter().zip(ONE) {
                if matches!(l, Value::String(_)) && *op == tag::IDENTITY {
                    continue;
                }
                let model = value::one(*op, a).map_err(|f| f.number());
                let rust = evaluate(name, l, r).map(|v| val(&v));
                assert_eq!(model, rust, "{name} {l:?}");
            }
        }
    }
}
