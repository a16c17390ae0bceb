//! The proved functions on expressions beside toyDB's own.
//!
//!     expressions compare N SEED   N random expressions of up to 2,000 cells, and the worst shapes, on a thread with 1 MiB of stack
//!     expressions bench            nanoseconds a cell, fold, into_nnf and into_cnf, by shape and size, both in one run
//!     expressions bench-push       the same of a join's predicate that is pushed into its sources
//!     expressions sample N SEED    toyDB's answers on N small expressions, to be stored (harness/expressions/replay.c replays them)
//!     expressions stack            bytes of stack that the deepest expressions take
mod bench;
mod calls;
mod compare;
mod sample;
mod shapes;
mod stack;
mod words;

use compare::{Asked, Counts, SETTLED};
use harness::original::{on_deep_stack, silence_panics};
use harness::tree::{Val, col, con, tag, two};
use shapes::Maker;

/// The worst shapes: each with its name.
fn worst(counts: &mut Counts) {
    let a = Asked { left: 4, from: 0, to: 5, by: 4, key: 3, index: vec![false, true, false, false, true, false, false, false] };
    let yes = || con(Val::Bool(true));
    let column = || col(1);
    let lookup = || two(tag::EQUAL, col(1), con(Val::Int(7)));
    for n in [2043, 2044, 2046, 2047, 2048] {
        for (what, leaf) in [("true", yes()), ("a column", col(0))] {
            let e = shapes::chain(tag::NOT, n, leaf);
            compare::compare(counts, &format!("{} Nots over {what}", n - 1), &e, &a);
        }
    }
    for op in [tag::AND, tag::OR, tag::EQUAL, tag::ADD, tag::DIVIDE, tag::SUBTRACT, tag::MULTIPLY, tag::LESS_THAN] {
        for to_left in [false, true] {
            let one = || con(Val::Int(1));
            let leaf: &dyn Fn() -> _ = if op == tag::AND || op == tag::OR || op == tag::EQUAL { &yes } else { &one };
            let side = if to_left { "left" } else { "right" };
            compare::compare(counts, &format!("tag {op} to the {side}, constants"), &shapes::deep(op, 2047, to_left, leaf), &a);
            compare::compare(counts, &format!("tag {op} to the {side}, columns"), &shapes::deep(op, 2047, to_left, &column), &a);
            compare::compare(counts, &format!("tag {op} to the {side}, lookups"), &shapes::deep(op, 1023, to_left, &lookup), &a);
            let under = shapes::chain(tag::NOT, 2, shapes::deep(op, 2045, to_left, &column));
            compare::compare(counts, &format!("Not of tag {op} to the {side}"), &under, &a);
        }
    }
    for op in [tag::IS_NULL, tag::IS_NAN, tag::IDENTITY, tag::NEGATE, tag::SQUARE_ROOT] {
        compare::compare(counts, &format!("2,047 of tag {op} over a column"), &shapes::chain(op, 2048, col(0)), &a);
        compare::compare(counts, &format!("2,047 of tag {op} over 1"), &shapes::chain(op, 2048, con(Val::Int(1))), &a);
    }
    // 4 p q − 1 cells, and q (p) for each Not in the left (right) side: 2,047 just fits, and so does 2,048; 2,049 doesn't.
    for (p, q, extra) in [(1, 512, 0), (512, 1, 0), (16, 32, 0), (32, 16, 0), (2, 256, 0), (512, 1, 1), (512, 1, 2), (1, 511, 1), (1, 511, 2), (1, 513, 0), (23, 22, 1), (2, 255, 1), (2, 255, 2)] {
        let e = shapes::spread(p, q, extra);
        compare::compare(counts, &format!("Or of {p} and {q} conjuncts, {extra} Nots"), &e, &a);
    }
    for k in (2..=12).chain([50, 512]) {
        compare::compare(counts, &format!("Or(And, Or(And, ..)) {k} deep"), &shapes::exponential(k), &a);
    }
}

fn compare(n: u64, seed: u64) -> bool {
    let mut counts = Counts::default();
    worst(&mut counts);
    let named = counts.expressions;
    for i in 0..n {
        let mut maker = Maker::case(seed, i);
        // As many small expressions as large ones.
        let bits = maker.rng.below(11);
        let cells = maker.rng.range(1 << bits, 2 << bits).min(2000);
        let e = maker.expression(cells);
        let asked = Asked::random(&mut maker.rng);
        compare::compare(&mut counts, &format!("case {i} of seed {seed}, {:?}", maker.shape), &e, &asked);
    }
    counts.different.iter().take(10).for_each(|d| println!("{d}"));
    println!("| function | {} | all |", SETTLED.join(" | "));
    println!("|---|---|---|---|---|---|");
    let mut total = 0;
    for (name, by) in &counts.same {
        let all: u64 = by.iter().sum();
        total += all;
        println!("| {name} | {} | {all} |", by.map(|n| n.to_string()).join(" | "));
    }
    println!(
        "{} expressions, {named} of them named, up to {} cells: {total} comparisons the same, {} different",
        counts.expressions,
        counts.largest,
        counts.different.len()
    );
    println!("lookups were copied in {} of them, and {} became a lookup by an index or key", counts.copied, counts.indexed);
    counts.different.is_empty()
}

fn main() {
    silence_panics();
    let words: Vec<String> = std::env::args().skip(1).collect();
    let number = |i: usize| words.get(i).and_then(|w| w.parse().ok()).unwrap_or(1);
    let ok = on_deep_stack(|| match words.first().map(String::as_str) {
        Some("compare") => compare(number(1), number(2)),
        Some("bench") => {
            bench::bench();
            true
        }
        Some("bench-push") => {
            bench::bench_push();
            true
        }
        Some("sample") => sample::sample(number(1), number(2)),
        Some("stack") => {
            stack::stack();
            true
        }
        _ => {
            eprintln!("expressions compare N SEED | bench | bench-push | sample N SEED | stack");
            false
        }
    });
    std::process::exit(i32::from(!ok));
}
