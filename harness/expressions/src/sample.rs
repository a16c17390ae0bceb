//! toyDB's answers on small random expressions, to be stored and replayed without it (harness/expressions/replay.c).
//!
//! Numbers are little-endian. First the text's length (2 bytes) and the text, then for each expression: its cells, the number of columns of a join's left
//! source (1 byte), and what toyDB makes of it: into_nnf, into_cnf, the fold, the predicate that stays with the join, and what is pushed to the left and to
//! the right. Cells are a number (2 bytes) and for each its tag (1 byte), a and b (4 bytes each); the number FFFF stands for no room, and FFFE for a refusal,
//! whose number (1 byte) and place (2 bytes) follow.

use std::io::Write;
use std::rc::Rc;

use harness::rng::Rng;
use harness::sql::planner::{Node, OPTIMIZERS};
use harness::tree::{Expr, Op, Val};

use crate::compare::{self, Asked, Counts, ROOM};
use crate::shapes::Maker;
use crate::words::{self, A, B, CELL_WORDS, TAG, TEXT};

fn cells(out: &mut Vec<u8>, w: &[u32]) {
    if w.len() > ROOM {
        out.extend(0xFFFFu16.to_le_bytes());
        return;
    }
    out.extend(((w.len() / CELL_WORDS) as u16).to_le_bytes());
    for cell in w.chunks(CELL_WORDS) {
        out.push(cell[TAG] as u8);
        out.extend(cell[A].to_le_bytes());
        out.extend(cell[B].to_le_bytes());
    }
}

/// The tree with the first reference to each text, which is what toyDB's answers are given with.
fn first_references(e: &Rc<Expr>) -> Rc<Expr> {
    let op = match &e.op {
        Op::Const(Val::Str(r)) => Op::Const(Val::Str(words::first_references(&[0, 5, 0, *r, 0, 0, 7])[A])),
        Op::Const(_) | Op::Col(_) => e.op.clone(),
        Op::One(op, x) => Op::One(*op, first_references(x)),
        Op::Two(op, l, r) => Op::Two(*op, first_references(l), first_references(r)),
    };
    Rc::new(Expr { at: e.at, op })
}

fn answers(out: &mut Vec<u8>, e: &Rc<Expr>, a: &Asked) {
    let e = words::numbered(&first_references(e), &mut 0);
    let mut s = Vec::new();
    words::of_tree(&e, &mut s);
    let original = words::original(&e);
    cells(out, &s);
    out.push(a.left as u8);
    cells(out, &words::of_original(&original.clone().into_nnf()));
    let cnf = words::of_original(&original.clone().into_cnf());
    cells(out, &cnf);
    match compare::folded(&e, &original).1 {
        Ok(w) => cells(out, &w),
        Err((number, place)) => {
            out.extend(0xFFFEu16.to_le_bytes());
            out.push(number as u8);
            out.extend((place as u16).to_le_bytes());
        }
    }
    let Ok(Node::NestedLoopJoin { left, right, predicate, .. }) = OPTIMIZERS[1].optimize(compare::join(original, a.left)) else { panic!("a join stays one") };
    let (Node::Scan { filter: to_left, .. }, Node::Scan { filter: to_right, .. }) = (*left, *right) else { panic!("a Scan stays one") };
    [predicate, to_left, to_right].iter().for_each(|e| cells(out, &compare::option_words(e)));
}

/// Writes so many expressions' answers to standard output, after they were compared.
pub fn sample(n: u64, seed: u64) -> bool {
    let mut out = (TEXT.len() as u16).to_le_bytes().to_vec();
    out.extend(TEXT);
    let mut counts = Counts::default();
    for i in 0..n {
        let mut maker = Maker::case(seed, i);
        let most = Rng::case(seed + 1, i).range(1, 24);
        let e = maker.expression(most);
        let a = Asked::random(&mut maker.rng);
        // Only what has room: a normal form past it is another test's.
        let (same, different) = (counts.no_room(), counts.different.len());
        compare::compare(&mut counts, "sample", &e, &a);
        if counts.no_room() == same && counts.different.len() == different {
            answers(&mut out, &e, &a);
        }
    }
    std::io::stdout().write_all(&out).expect("standard output");
    eprintln!("{} expressions, {} different", counts.expressions, counts.different.len());
    counts.different.is_empty()
}
