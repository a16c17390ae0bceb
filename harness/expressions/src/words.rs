//! Expressions in their working form: postfix cells of seven words of 32 bits, origin (0), tag, flag, a, b, c and the number of words of the subtree that ends
//! with the cell. From a tree, and from toyDB's `Expression`, each by its own lines.

use std::rc::Rc;

use harness::sql::types::{Expression, Value};
use harness::tree::{self, Expr, Op, Val, tag, text_of};

/// The text that Strings refer to. References to equal text differ.
pub const TEXT: &[u8] = "aababcabdXéz\u{20ac}".as_bytes();

/// The words of a cell, and which of them are its tag and its numbers a and b.
pub const CELL_WORDS: usize = 7;
pub const TAG: usize = 1;
pub const A: usize = 3;
pub const B: usize = 4;

/// Offset and length of the references into TEXT.
pub const REFERENCES: [(u32, u32); 14] =
    [(0, 0), (0, 1), (1, 1), (0, 2), (1, 2), (3, 2), (3, 3), (6, 3), (9, 1), (10, 2), (10, 3), (13, 3), (0, 16), (16, 0)];

pub fn reference(i: usize) -> u32 {
    let (offset, length) = REFERENCES[i];
    offset + 65536 * length
}

/// The first reference to a text: toyDB's Strings know no reference, so texts are compared.
fn first_reference(text: &[u8]) -> u32 {
    let all = (0..REFERENCES.len()).map(reference);
    all.into_iter().find(|&r| text_of(TEXT, r) == text).expect("a text of the pool")
}

fn put(words: &mut Vec<u32>, start: usize, tag: u8, a: u32, b: u32) {
    let size = words.len() - start + CELL_WORDS;
    words.extend([0, tag as u32, 0, a, b, 0, size as u32]);
}

fn halves(words: &mut Vec<u32>, tag: u8, bits: u64) {
    let start = words.len();
    put(words, start, tag, bits as u32, (bits >> 32) as u32);
}

/// The words of a tree.
pub fn of_tree(e: &Expr, words: &mut Vec<u32>) {
    let start = words.len();
    match &e.op {
        Op::Const(Val::Null) => put(words, start, tag::NULL, 0, 0),
        Op::Const(Val::Bool(b)) => put(words, start, tag::BOOLEAN, *b as u32, 0),
        Op::Const(Val::Int(i)) => halves(words, tag::INTEGER, *i as u64),
        Op::Const(Val::Float(bits)) => halves(words, tag::FLOAT, *bits),
        Op::Const(Val::Str(r)) => put(words, start, tag::STRING, *r, 0),
        Op::Col(c) => put(words, start, tag::COLUMN, *c, 0),
        Op::One(op, x) => {
            of_tree(x, words);
            put(words, start, *op, 0, 0);
        }
        Op::Two(op, l, r) => {
            of_tree(l, words);
            of_tree(r, words);
            put(words, start, *op, 0, 0);
        }
    }
}

fn of_value(v: &Value, words: &mut Vec<u32>) {
    let start = words.len();
    match v {
        Value::Null => put(words, start, tag::NULL, 0, 0),
        Value::Boolean(b) => put(words, start, tag::BOOLEAN, *b as u32, 0),
        Value::Integer(i) => halves(words, tag::INTEGER, *i as u64),
        // A NaN has the one pattern (docs/DIFFERENCES.md).
        Value::Float(f) => halves(words, tag::FLOAT, tree::pattern(*f)),
        Value::String(s) => put(words, start, tag::STRING, first_reference(s.as_bytes()), 0),
    }
}

/// The words of toyDB's values, one after the other.
pub fn of_values(values: &[Value]) -> Vec<u32> {
    let mut words = Vec::new();
    values.iter().for_each(|v| of_value(v, &mut words));
    words
}

fn append(e: &Expression, words: &mut Vec<u32>) {
    use Expression::*;
    let start = words.len();
    let (tag, l, r) = match e {
        Constant(v) => return of_value(v, words),
        Column(c) => return put(words, start, tag::COLUMN, u32::try_from(*c).expect("a column that fits a word"), 0),
        And(l, r) => (tag::AND, l, Some(r)),
        Or(l, r) => (tag::OR, l, Some(r)),
        Equal(l, r) => (tag::EQUAL, l, Some(r)),
        GreaterThan(l, r) => (tag::GREATER_THAN, l, Some(r)),
        LessThan(l, r) => (tag::LESS_THAN, l, Some(r)),
        Add(l, r) => (tag::ADD, l, Some(r)),
        Divide(l, r) => (tag::DIVIDE, l, Some(r)),
        Subtract(l, r) => (tag::SUBTRACT, l, Some(r)),
        Multiply(l, r) => (tag::MULTIPLY, l, Some(r)),
        Not(x) => (tag::NOT, x, None),
        Is(x, Value::Null) => (tag::IS_NULL, x, None),
        Is(x, _) => (tag::IS_NAN, x, None),
        Identity(x) => (tag::IDENTITY, x, None),
        Negate(x) => (tag::NEGATE, x, None),
        SquareRoot(x) => (tag::SQUARE_ROOT, x, None),
        other => unreachable!("not carried over: {other:?}"),
    };
    append(l, words);
    if let Some(r) = r {
        append(r, words);
    }
    put(words, start, tag, 0, 0);
}

/// The words of toyDB's expression, with the first reference to each text.
pub fn of_original(e: &Expression) -> Vec<u32> {
    let mut words = Vec::new();
    append(e, &mut words);
    words
}

/// Words with the first reference to each text.
pub fn first_references(words: &[u32]) -> Vec<u32> {
    let mut words = words.to_vec();
    for cell in words.chunks_mut(CELL_WORDS).filter(|cell| cell[TAG] == tag::STRING as u32) {
        cell[A] = first_reference(text_of(TEXT, cell[A]));
    }
    words
}

/// The most that an expression's columns can be shifted up by: the highest of them has to fit a word.
pub fn highest_shift(words: &[u32]) -> usize {
    let columns = words.chunks(CELL_WORDS).filter(|cell| cell[TAG] == tag::COLUMN as u32).map(|cell| cell[A]);
    (u32::MAX - columns.max().unwrap_or(0)) as usize
}

/// toyDB's expression of a tree.
pub fn original(e: &Expr) -> Expression {
    use Expression::*;
    let sub = |x: &Rc<Expr>| Box::new(original(x));
    match &e.op {
        Op::Const(v) => Constant(harness::compare::value(*v, TEXT)),
        Op::Col(c) => Column(*c as usize),
        Op::One(op, x) => match *op {
            tag::NOT => Not(sub(x)),
            tag::IS_NULL => Is(sub(x), Value::Null),
            tag::IS_NAN => Is(sub(x), Value::Float(f64::NAN)),
            tag::IDENTITY => Identity(sub(x)),
            tag::SQUARE_ROOT => SquareRoot(sub(x)),
            _ => Negate(sub(x)),
        },
        Op::Two(op, l, r) => match *op {
            tag::AND => And(sub(l), sub(r)),
            tag::OR => Or(sub(l), sub(r)),
            tag::EQUAL => Equal(sub(l), sub(r)),
            tag::GREATER_THAN => GreaterThan(sub(l), sub(r)),
            tag::LESS_THAN => LessThan(sub(l), sub(r)),
            tag::ADD => Add(sub(l), sub(r)),
            tag::SUBTRACT => Subtract(sub(l), sub(r)),
            tag::MULTIPLY => Multiply(sub(l), sub(r)),
            _ => Divide(sub(l), sub(r)),
        },
    }
}

/// The tree with its cells numbered in order from 0, as in a sheet that starts with it.
pub fn numbered(e: &Expr, next: &mut u32) -> Rc<Expr> {
    let op = match &e.op {
        Op::Const(_) | Op::Col(_) => e.op.clone(),
        Op::One(op, x) => Op::One(*op, numbered(x, next)),
        Op::Two(op, l, r) => {
            let l = numbered(l, next);
            Op::Two(*op, l, numbered(r, next))
        }
    };
    *next += 1;
    Rc::new(tree::Expr { at: *next - 1, op })
}
