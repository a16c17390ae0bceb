//! How much stack the deepest expressions take: what lies below is painted, and read again after the call.

use std::rc::Rc;

use harness::tree::{Expr, Val, col, con, one, tag, two};

use crate::calls;
use crate::compare::ROOM;
use crate::shapes::{chain, deep};
use crate::words::{self, TEXT};

const PAINT: u64 = 0xA5A5_5A5A_C3C3_3C3C;
/// Painted from so many bytes below the caller's frame, down to so many.
const NEAR: usize = 2048;
const FAR: usize = 8 << 20;

/// Bytes of stack below the caller's frame that a call writes to, to within NEAR.
#[inline(never)]
fn used(call: impl FnOnce()) -> usize {
    let mark = 0u64;
    let here = std::hint::black_box(&mark) as *const u64 as usize;
    let words = || (0..(FAR - NEAR) / 8).map(|i| (here - FAR + 8 * i) as *mut u64);
    // SAFETY: the thread's stack is larger than FAR, and nothing lives there below the frames of this function and its callees, which take less than NEAR.
    words().for_each(|w| unsafe { w.write_volatile(PAINT) });
    call();
    let touched = words().find(|w| unsafe { w.read_volatile() } != PAINT);
    touched.map_or(NEAR, |w| here - w as usize)
}

fn ignore<T>(_: T) {}

type Call = fn(&[u32], &mut [u32]);

/// The records of eight columns without an index, and a key that the expressions below don't look up, so that every conjunct is asked.
const COLUMNS: [u8; 16 * 8] = [0; 16 * 8];
const KEY: usize = 7;

const CALLS: [(&str, Call); 12] = [
    ("fold_expression", |s, d| ignore(calls::fold(TEXT, s, d))),
    ("into_nnf", |s, d| ignore(calls::into_nnf(s, d, 0))),
    ("distribute", |s, d| ignore(calls::distribute(s, d, 0))),
    ("for_left (gather)", |s, d| ignore(calls::for_left(s, d, 4))),
    ("for_right (gather)", |s, d| ignore(calls::for_right(s, d, 4, 4))),
    ("replace_column (map_columns)", |s, d| ignore(calls::replace_column(s, d, 1, 2))),
    ("refers", |s, _| ignore(calls::refers(s, 4))),
    ("is_column_lookup", |s, _| ignore(calls::is_column_lookup(s))),
    ("into_column_values", |s, d| ignore(calls::into_column_values(s, 0, s.len(), d))),
    ("push_left", |s, d| ignore(calls::push_left(s, &[], d, 4))),
    ("find_lookup", |s, _| ignore(calls::find_lookup(s, KEY, &COLUMNS))),
    ("remaining", |s, d| ignore(calls::remaining(s, d, KEY, &COLUMNS))),
];

/// Expressions of n cells, with their depth.
fn shapes(n: usize) -> Vec<(&'static str, Rc<Expr>, usize)> {
    let column = || col(1);
    let yes = || con(Val::Bool(true));
    let integer = || con(Val::Int(1));
    let equal = || two(tag::EQUAL, col(1), con(Val::Int(7)));
    let depth = |e: Rc<Expr>, leaf: usize| {
        let d = (e.size() - leaf) / (leaf + 1);
        (e, d)
    };
    let mut list = Vec::new();
    let mut add = |name, (e, d): (Rc<Expr>, usize)| list.push((name, e, d));
    add("Nots over a column", (chain(tag::NOT, n, col(0)), n - 1));
    add("Nots over true", (chain(tag::NOT, n, yes()), n - 1));
    add("Negates over 1", (chain(tag::NEGATE, n, integer()), n - 1));
    for (left, names) in [
        (true, ["And to the left", "And of true to the left", "Or to the left", "Add of 1 to the left", "And of equalities to the left", "Or of lookups to the left", "Not of And to the left"]),
        (false, ["And to the right", "And of true to the right", "Or to the right", "Add of 1 to the right", "And of equalities to the right", "Or of lookups to the right", "Not of And to the right"]),
    ] {
        add(names[0], depth(deep(tag::AND, n, left, &column), 1));
        add(names[1], depth(deep(tag::AND, n, left, &yes), 1));
        add(names[2], depth(deep(tag::OR, n, left, &column), 1));
        add(names[3], depth(deep(tag::ADD, n, left, &integer), 1));
        add(names[4], depth(deep(tag::AND, n / 2, left, &equal), 3));
        add(names[5], depth(deep(tag::OR, n / 2, left, &equal), 3));
        let (e, d) = depth(deep(tag::AND, n - 1, left, &column), 1);
        add(names[6], (one(tag::NOT, e), d));
    }
    list
}

/// For each function the shape that takes the most, at 2,048 cells or one less, and what a level takes there.
pub fn stack() {
    println!("| function | expression | levels | bytes of stack | bytes a level |");
    println!("|---|---|---|---|---|");
    let (full, half) = (shapes(2048), shapes(1024));
    for (name, call) in CALLS {
        let measure = |e: &Rc<Expr>| {
            let mut s = Vec::new();
            words::of_tree(e, &mut s);
            let mut d = vec![0u32; ROOM];
            used(|| call(&s, &mut d))
        };
        let mut rows: Vec<_> = (0..full.len()).map(|i| (measure(&full[i].1), measure(&half[i].1), i)).collect();
        rows.sort_by_key(|r| std::cmp::Reverse(r.0));
        for (all, part, i) in rows.into_iter().take(2) {
            let (shape, _, levels) = &full[i];
            let per = (all - part) as f64 / (levels - half[i].2) as f64;
            println!("| {name} | {shape} | {levels} | {all} | {per:.0} |");
        }
    }
}
