//! Nanoseconds a cell, the proved functions and toyDB's in one run, on the same expressions.
//!
//! toyDB's functions take the expression and give another: the copies that they are given are made before the clock starts, and what they give is dropped
//! after it stops.

use std::hint::black_box;
use std::rc::Rc;
use std::time::Instant;

use harness::sql::planner::OPTIMIZERS;
use harness::sql::planner::optimizer::ConstantFolding;
use harness::sql::types::Expression;
use harness::tree::{Expr, Val, col, con, one, tag, two};

use crate::calls;
use crate::compare::ROOM;
use crate::shapes::{self, Maker, Shape};
use crate::words::{self, CELL_WORDS, TEXT};

const ROUNDS: usize = 15;

/// Nanoseconds a call, the best of several rounds.
fn time(mut call: impl FnMut()) -> f64 {
    let mut calls = 1u32;
    let mut round = |calls: u32| {
        let start = Instant::now();
        (0..calls).for_each(|_| call());
        start.elapsed().as_nanos() as f64
    };
    while round(calls) < 1e6 {
        calls *= 2;
    }
    (0..ROUNDS).map(|_| round(calls) / f64::from(calls)).fold(f64::INFINITY, f64::min)
}

/// The same for a function that takes what it is given.
fn time_taking<A: Clone, T>(a: &A, cells: usize, call: impl Fn(A) -> T) -> f64 {
    let copies = (20_000 / cells).max(10);
    let round = || {
        let given: Vec<A> = (0..copies).map(|_| a.clone()).collect();
        let mut results = Vec::with_capacity(copies);
        let start = Instant::now();
        given.into_iter().for_each(|a| results.push(call(a)));
        let elapsed = start.elapsed().as_nanos() as f64;
        black_box(&results);
        elapsed / copies as f64
    };
    (0..ROUNDS).map(|_| round()).fold(f64::INFINITY, f64::min)
}

fn row(function: &str, name: &str, cells: usize, proved: f64, original: f64) {
    let per = |t: f64| t / cells as f64;
    println!("| {function} | {name} | {cells} | {:.1} | {:.1} | {:.2} |", per(proved), per(original), proved / original);
}

fn given(e: &Rc<Expr>) -> (Vec<u32>, Expression) {
    let mut s = Vec::new();
    words::of_tree(e, &mut s);
    (s, words::original(e))
}

fn fold(name: &str, e: &Rc<Expr>) {
    let (s, original) = given(e);
    let mut d = vec![0; ROOM];
    let proved = time(|| {
        let _ = black_box(calls::fold(TEXT, black_box(&s), &mut d));
    });
    let toydb = time_taking(&original, s.len() / CELL_WORDS, |e| e.transform(&Ok, &ConstantFolding::fold));
    row("fold", name, s.len() / CELL_WORDS, proved, toydb);
}

fn nnf(name: &str, e: &Rc<Expr>) {
    let (s, original) = given(e);
    let mut d = vec![0; ROOM];
    let proved = time(|| {
        black_box(calls::into_nnf(black_box(&s), &mut d, 0));
    });
    row("into_nnf", name, s.len() / CELL_WORDS, proved, time_taking(&original, s.len() / CELL_WORDS, Expression::into_nnf));
}

/// By the cells of the normal form, which may be more than those of the expression.
fn cnf(name: &str, e: &Rc<Expr>) {
    let (s, original) = given(e);
    let (mut x, mut d) = (vec![0; ROOM], vec![0; ROOM]);
    let mut size = 0;
    let proved = time(|| {
        let n = calls::into_nnf(black_box(&s), &mut x, 0).expect("room");
        size = calls::distribute(&x[..n], &mut d, 0).expect("room");
    });
    row("into_cnf", name, size / CELL_WORDS, proved, time_taking(&original, s.len() / CELL_WORDS, Expression::into_cnf));
}

/// What the copies of toyDB's tree cost beside it, and what the cells cost to copy.
fn copies(name: &str, e: &Rc<Expr>) {
    let (s, original) = given(e);
    let mut d = vec![0; ROOM];
    let proved = time(|| black_box(&mut d)[..s.len()].copy_from_slice(black_box(&s)));
    let toydb = time_taking(&original, s.len() / CELL_WORDS, |e| black_box(&e).clone());
    row("copy (clone)", name, s.len() / CELL_WORDS, proved, toydb);
}

/// A random expression of about so many cells that folds and whose normal form fits.
fn random(shape: Shape, cells: usize, columns: usize) -> Rc<Expr> {
    let made = (0..4000).map(|seed| Maker { rng: harness::rng::Rng(seed), shape, columns, misfits: 0 }.expression(cells));
    let mut d = vec![0; ROOM];
    let mut x = vec![0; ROOM];
    let good = made.filter(|e| {
        let mut s = Vec::new();
        words::of_tree(e, &mut s);
        let cnf = calls::into_nnf(&s, &mut x, 0).and_then(|n| calls::distribute(&x[..n], &mut d, 0));
        cnf.is_some() && calls::fold(TEXT, &s, &mut d).is_ok()
    });
    good.min_by_key(|e| e.size().abs_diff(cells)).expect("an expression that folds")
}

/// The pushing of a join's predicate of k equalities of a left and a right column and m lookups of other right columns, of which none is copied: every
/// lookup is passed over for every equality.
pub fn bench_push() {
    println!("| equijoins | lookups | push_left, µs | ns a pair | cnf and all of push_left, push_right, for_both, µs | toyDB's FilterPushdown, µs |");
    println!("|---|---|---|---|---|---|");
    for (k, m) in [(4, 4), (16, 16), (64, 64), (255, 255), (400, 100), (100, 400)] {
        let join = |i: u32| two(tag::EQUAL, col(i), col(1000 + i));
        let lookup = |i: u32| two(tag::EQUAL, col(2000 + i), con(Val::Int(i as i64)));
        let all = (0..k).map(join).chain((0..m).map(lookup));
        let e = all.reduce(|l, r| two(tag::AND, l, r)).expect("a conjunct");
        let (s, original) = given(&e);
        let (mut x, mut y, mut g, mut d) = (vec![0; ROOM], vec![0; ROOM], vec![0; ROOM], vec![0; ROOM]);
        let n = calls::for_right(&s, &mut g, 1000, 0).expect("room");
        let alone = time(|| {
            black_box(calls::push_left(black_box(&s), &g[..n], &mut d, 1000));
        });
        let whole = time(|| {
            let a = calls::into_nnf(black_box(&s), &mut x, 0).expect("room");
            let b = calls::distribute(&x[..a], &mut y, 0).expect("room");
            let n = calls::for_right(&y[..b], &mut g, 1000, 0).expect("room");
            black_box(calls::push_left(&y[..b], &g[..n], &mut d, 1000));
            let n = calls::for_left(&y[..b], &mut g, 1000).expect("room");
            black_box(calls::push_right(&y[..b], &g[..n], &mut d, 1000));
            black_box(calls::for_both(&y[..b], &mut d, 1000));
        });
        let toydb = time_taking(&crate::compare::join(original, 1000), 1000, |node| OPTIMIZERS[1].optimize(node));
        println!("| {k} | {m} | {:.1} | {:.2} | {:.1} | {:.1} |", alone / 1e3, alone / f64::from(k * m), whole / 1e3, toydb / 1e3);
    }
}

const SIZES: [usize; 4] = [10, 100, 1000, 2000];

pub fn bench() {
    println!("| function | expression | cells | proved, ns a cell | toyDB, ns a cell | ratio |");
    println!("|---|---|---|---|---|---|");
    let yes = || con(Val::Bool(true));
    let null = || con(Val::Null);
    let integer = || con(Val::Int(1));
    let float = || con(Val::Float(1.5f64.to_bits()));
    let column = || col(1);
    let equal = || two(tag::EQUAL, col(1), con(Val::Int(7)));
    let not_equal = || one(tag::NOT, two(tag::EQUAL, col(1), con(Val::Int(7))));
    for n in SIZES {
        fold("1 + 1 + .. to the left", &shapes::deep(tag::ADD, n, true, &integer));
        fold("1 + (1 + ..) to the right", &shapes::deep(tag::ADD, n, false, &integer));
        fold("1.5 / .. to the left", &shapes::deep(tag::DIVIDE, n, true, &float));
        fold("And of true, to the left", &shapes::deep(tag::AND, n, true, &yes));
        fold("And of columns, to the left", &shapes::deep(tag::AND, n, true, &column));
        fold("And of columns, to the right", &shapes::deep(tag::AND, n, false, &column));
        fold("And of Nulls, to the right", &shapes::deep(tag::AND, n, false, &null));
        fold("Nots over true", &shapes::chain(tag::NOT, n, yes()));
        fold("Nots over a column", &shapes::chain(tag::NOT, n, col(0)));
        fold("wide, half of the leaves columns", &random(Shape::Wide, n, 500));
        fold("Or over And over Or, columns", &random(Shape::OrOverAnd, n, 900));
        fold("lookups", &random(Shape::Lookups, n, 900));
    }
    for n in SIZES {
        nnf("And of columns, to the left", &shapes::deep(tag::AND, n, true, &column));
        nnf("And of columns, to the right", &shapes::deep(tag::AND, n, false, &column));
        nnf("Not of Or of columns, to the left", &one(tag::NOT, shapes::deep(tag::OR, n - 1, true, &column)));
        nnf("Not of Or of columns, to the right", &one(tag::NOT, shapes::deep(tag::OR, n - 1, false, &column)));
        nnf("Nots over a column", &shapes::chain(tag::NOT, n, col(0)));
        nnf("And of Not equal, to the left", &shapes::deep(tag::AND, n / 5 * 2, true, &not_equal));
        nnf("wide, half of the leaves columns", &random(Shape::Wide, n, 500));
        nnf("runs of Nots", &random(Shape::Nots, n, 500));
        nnf("lookups", &random(Shape::Lookups, n, 900));
    }
    for n in SIZES {
        cnf("And of columns, to the left", &shapes::deep(tag::AND, n, true, &column));
        cnf("And of columns, to the right", &shapes::deep(tag::AND, n, false, &column));
        cnf("Or of lookups, to the right", &shapes::deep(tag::OR, n / 2, false, &equal));
        cnf("Nots over a column", &shapes::chain(tag::NOT, n, col(0)));
        let p = ((n + 1) as f64 / 4.0).sqrt() as usize;
        cnf("Or of two Ands", &shapes::spread(p, p, 0));
        cnf("Or of a column and an And", &shapes::spread(1, n / 4, 0));
        cnf("Or of an And and a column", &shapes::spread(n / 4, 1, 0));
        cnf("lookups", &random(Shape::Lookups, n, 900));
    }
    for n in SIZES {
        copies("And of columns, to the left", &shapes::deep(tag::AND, n, true, &column));
    }
}
