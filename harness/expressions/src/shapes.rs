//! Expressions of every shape, up to a number of cells.

use std::rc::Rc;

use harness::rng::Rng;
use harness::tree::{Expr, NAN, Val, col, con, one, tag, two};

use crate::words;

/// How an expression's cells are spread over its operands.
#[derive(Clone, Copy, Debug, PartialEq, Eq, PartialOrd, Ord)]
pub enum Shape {
    /// The left operand is small.
    RightDeep,
    /// The right operand is small.
    LeftDeep,
    /// Both operands have about half of the cells.
    Wide,
    /// Anything between.
    Mixed,
    /// Runs of Nots, over And and Or and what is below them.
    Nots,
    /// Ors over Ands over Ors, of few cells each.
    OrOverAnd,
    /// And of Ors of lookups.
    Lookups,
    /// And of lookups and equalities of columns, as join predicates are.
    Joins,
}

pub const SHAPES: [Shape; 8] =
    [Shape::RightDeep, Shape::LeftDeep, Shape::Wide, Shape::Mixed, Shape::Nots, Shape::OrOverAnd, Shape::Lookups, Shape::Joins];

/// What an operand has to be, for its operator not to refuse it.
#[derive(Clone, Copy, PartialEq)]
enum Kind {
    Truth,
    Number,
}

pub struct Maker {
    pub rng: Rng,
    pub shape: Shape,
    /// In how many of 1,000 leaves a Column stands.
    pub columns: usize,
    /// In how many of 1,000 operands a kind stands that doesn't fit.
    pub misfits: usize,
}

impl Maker {
    /// A random maker for a case.
    pub fn case(seed: u64, i: u64) -> Maker {
        let mut rng = Rng::case(seed, i);
        let shape = rng.pick(&SHAPES);
        let columns = rng.pick(&[0, 20, 300, 600, 900]);
        let misfits = rng.pick(&[0, 0, 0, 1, 10]);
        Maker { rng, shape, columns, misfits }
    }

    /// An expression of at most about `cells` cells.
    pub fn expression(&mut self, cells: usize) -> Rc<Expr> {
        match self.shape {
            Shape::Lookups if self.rng.percent(40) => self.lookup(cells),
            Shape::Lookups => self.all(cells, &|m, n| m.lookup(n)),
            Shape::Joins => self.all(cells, &|m, n| m.conjunct(n)),
            Shape::OrOverAnd => self.alternating(cells, 0),
            Shape::Nots => self.nots(cells),
            _ if self.rng.percent(80) => self.make(Kind::Truth, cells),
            _ => self.make(Kind::Number, cells),
        }
    }

    fn column(&mut self) -> Rc<Expr> {
        let c = match self.rng.below(200) {
            0 => u32::MAX,
            1 => 262_143,
            n => (n % 8) as u32,
        };
        col(c)
    }

    fn integer(&mut self) -> i64 {
        let fixed = [0, 1, -1, 2, 7, i64::MAX, i64::MAX - 1, i64::MIN, i64::MIN + 1, 1 << 53, (1 << 53) + 1, -(1 << 53) - 1];
        match self.rng.below(20) {
            n if n < 12 => fixed[n],
            n if n < 17 => self.rng.range(0, 200) as i64 - 100,
            _ => self.rng.next() as i64,
        }
    }

    fn float(&mut self) -> f64 {
        let fixed = [
            0.0, -0.0, 1.0, -1.5, f64::NAN, f64::INFINITY, f64::NEG_INFINITY, f64::MAX, f64::MIN_POSITIVE, 5e-324, 9007199254740992.0, 9.2e18, -0.1,
        ];
        match self.rng.below(18) {
            n if n < 13 => fixed[n],
            n if n < 16 => self.rng.range(0, 200) as f64 / 8.0 - 10.0,
            _ => f64::from_bits(self.rng.next()),
        }
    }

    fn constant(&mut self, n: usize) -> Rc<Expr> {
        con(match n {
            0 => Val::Null,
            1 => Val::Bool(self.rng.percent(50)),
            2 => Val::Int(self.integer()),
            3 => {
                let f = self.float();
                Val::Float(if f.is_nan() { NAN } else { f.to_bits() })
            }
            _ => Val::Str(words::reference(self.rng.below(words::REFERENCES.len()))),
        })
    }

    fn any_constant(&mut self) -> Rc<Expr> {
        let n = self.rng.weighted(&[1, 2, 5, 4, 3]);
        self.constant(n)
    }

    fn leaf(&mut self, kind: Kind) -> Rc<Expr> {
        if self.rng.below(1000) < self.columns {
            return self.column();
        }
        let n = match kind {
            Kind::Truth => self.rng.weighted(&[2, 8]),
            Kind::Number => self.rng.weighted(&[1, 0, 6, 4]),
        };
        self.constant(n)
    }

    /// How many of n cells the left operand gets; the right one gets the rest.
    fn split(&mut self, n: usize) -> usize {
        let few = self.rng.range(1, 3).min(n - 1);
        match self.shape {
            Shape::RightDeep => few,
            Shape::LeftDeep => n - few,
            Shape::Wide => n / 2,
            _ => self.rng.range(1, n - 1),
        }
    }

    fn make(&mut self, kind: Kind, n: usize) -> Rc<Expr> {
        let kind = match kind {
            _ if self.rng.below(1000) >= self.misfits => kind,
            Kind::Truth => Kind::Number,
            Kind::Number => Kind::Truth,
        };
        if n < 2 {
            return self.leaf(kind);
        }
        if n == 2 || self.rng.percent(15) {
            let (op, below) = match (kind, self.rng.below(10)) {
                (Kind::Truth, 0..=5) => (tag::NOT, Kind::Truth),
                (Kind::Truth, 6 | 7) => (tag::IS_NULL, self.rng.pick(&[Kind::Truth, Kind::Number])),
                // An Integer under Is NaN is refused: a Float, or a column.
                (Kind::Truth, _) if self.rng.percent(70) => return one(tag::IS_NAN, if self.rng.percent(50) { self.constant(3) } else { self.column() }),
                (Kind::Truth, _) => (tag::IS_NAN, Kind::Number),
                (Kind::Number, 0..=4) => (tag::IDENTITY, Kind::Number),
                (Kind::Number, 5) => (tag::SQUARE_ROOT, Kind::Number),
                (Kind::Number, _) => (tag::NEGATE, Kind::Number),
            };
            return one(op, self.make(below, n - 1));
        }
        let left = self.split(n - 1);
        let (op, below) = match (kind, self.rng.below(10)) {
            (Kind::Truth, 0..=3) => (tag::AND, Kind::Truth),
            (Kind::Truth, 4..=7) => (tag::OR, Kind::Truth),
            (Kind::Truth, _) if n == 3 && self.rng.percent(30) => {
                let op = self.rng.pick(&[tag::EQUAL, tag::GREATER_THAN, tag::LESS_THAN]);
                return two(op, self.constant(4), self.constant(4));
            }
            (Kind::Truth, _) => {
                let below = if self.rng.percent(70) { Kind::Number } else { Kind::Truth };
                (self.rng.pick(&[tag::EQUAL, tag::GREATER_THAN, tag::LESS_THAN]), below)
            }
            (Kind::Number, 0..=4) => (tag::ADD, Kind::Number),
            (Kind::Number, 5) => (tag::SUBTRACT, Kind::Number),
            (Kind::Number, 6) => (tag::MULTIPLY, Kind::Number),
            (Kind::Number, _) => (tag::DIVIDE, Kind::Number),
        };
        let l = self.make(below, left);
        two(op, l, self.make(below, n - 1 - left))
    }

    /// Runs of Nots; between them And, Or, or another operator.
    fn nots(&mut self, n: usize) -> Rc<Expr> {
        if n < 3 {
            return self.make(Kind::Truth, n);
        }
        let run = match self.rng.below(4) {
            0 => self.rng.range(0, n - 1),
            1 => 1,
            2 => 2,
            _ => 3,
        }
        .min(n - 1);
        let left = n - run;
        let mut e = if left < 3 {
            self.make(Kind::Truth, left)
        } else {
            let l = self.rng.range(1, left - 2);
            let op = self.rng.pick(&[tag::AND, tag::OR, tag::AND, tag::OR, tag::EQUAL]);
            let x = self.nots(l);
            two(op, x, self.nots(left - 1 - l))
        };
        for _ in 0..run {
            e = one(tag::NOT, e);
        }
        e
    }

    /// Or over And over Or.
    fn alternating(&mut self, n: usize, level: usize) -> Rc<Expr> {
        if n < 3 || (level > 2 && self.rng.percent(40)) {
            return self.make(Kind::Truth, n.min(5));
        }
        let op = if (level + self.rng.below(8) / 7).is_multiple_of(2) { tag::OR } else { tag::AND };
        let left = self.rng.range(1, n - 2);
        let l = self.alternating(left, level + 1);
        two(op, l, self.alternating(n - 1 - left, level + 1))
    }

    /// And of what the function makes, to the left, to the right or in halves.
    fn all(&mut self, n: usize, part: &dyn Fn(&mut Maker, usize) -> Rc<Expr>) -> Rc<Expr> {
        if n < 7 || self.rng.percent(4) {
            return part(self, n);
        }
        let most = n - 4;
        let left = match self.rng.below(4) {
            0 => 3,
            1 => most,
            2 => n / 2,
            _ => self.rng.range(3, most),
        };
        let l = self.all(left, part);
        two(tag::AND, l, self.all(n - 1 - left, part))
    }

    /// An Or of lookups, mostly of one column.
    fn lookup(&mut self, n: usize) -> Rc<Expr> {
        let c = self.rng.below(8) as u32;
        self.lookup_of(c, n)
    }

    fn lookup_of(&mut self, c: u32, n: usize) -> Rc<Expr> {
        if n >= 7 && self.rng.percent(85) {
            let left = self.rng.pick(&[3, n - 4, n / 2]);
            let l = self.lookup_of(c, left);
            return two(tag::OR, l, self.lookup_of(c, n - 1 - left));
        }
        let c = if self.rng.percent(2) { self.rng.below(8) as u32 } else { c };
        match self.rng.below(20) {
            0 | 1 => one(tag::IS_NULL, col(c)),
            2 | 3 => one(tag::IS_NAN, col(c)),
            4..=10 => two(tag::EQUAL, col(c), self.any_constant()),
            11..=18 => two(tag::EQUAL, self.any_constant(), col(c)),
            _ => self.make(Kind::Truth, n),
        }
    }

    /// A conjunct of a join's predicate.
    fn conjunct(&mut self, n: usize) -> Rc<Expr> {
        match self.rng.below(20) {
            0..=7 => {
                let (l, r) = (self.rng.below(8) as u32, self.rng.below(8) as u32);
                two(tag::EQUAL, col(l), col(r))
            }
            8..=16 => {
                let n = n.min(12);
                self.lookup(n)
            }
            17 => one(tag::NOT, self.lookup(3)),
            18 => self.any_constant(),
            _ => self.make(Kind::Truth, n.min(9)),
        }
    }
}

// ---- the worst shapes, by name

/// The operator o with a leaf to the left (or to the right) of the rest, n cells or one less.
pub fn deep(op: u8, n: usize, to_left: bool, leaf: &dyn Fn() -> Rc<Expr>) -> Rc<Expr> {
    let mut e = leaf();
    for _ in 0..(n - 1) / 2 {
        e = if to_left { two(op, e, leaf()) } else { two(op, leaf(), e) };
    }
    e
}

/// n − 1 one-operand operators over a leaf.
pub fn chain(op: u8, n: usize, leaf: Rc<Expr>) -> Rc<Expr> {
    (1..n).fold(leaf, |e, _| one(op, e))
}

/// An Or of p conjuncts and q conjuncts, each a column, `extra` of them under a Not: its normal form has 4pq − 1 cells and the Nots'.
pub fn spread(p: usize, q: usize, extra: usize) -> Rc<Expr> {
    let mut nots = extra;
    let mut next = 0;
    let mut ands = |n: usize| {
        let mut e: Option<Rc<Expr>> = None;
        for _ in 0..n {
            next += 1;
            let mut x = col(next % 8);
            if nots > 0 {
                nots -= 1;
                x = one(tag::NOT, x);
            }
            e = Some(match e {
                None => x,
                Some(e) => two(tag::AND, e, x),
            });
        }
        e.expect("some conjunct")
    };
    let l = ands(p);
    two(tag::OR, l, ands(q))
}

/// Or(And(a, b), Or(And(a, b), …)), k deep.
pub fn exponential(k: usize) -> Rc<Expr> {
    let pair = || two(tag::AND, col(0), col(1));
    (1..k).fold(pair(), |e, _| two(tag::OR, pair(), e))
}
