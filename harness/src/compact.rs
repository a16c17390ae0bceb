//! A model of the operation compact: a sheet without the text that nobody
//! refers to.
//!
//! Written from document 02's sentences (W-212) on the tree of tree.rs, which
//! knows names, labels, aliases and Strings, and no fields of cells: the sheet
//! is read, each reference of its tables, its columns and its plan is led to
//! the new text, and the sheet is written anew. Origins, which the tree hasn't,
//! are put back by cell number.

use std::collections::{BTreeSet, HashMap};
use std::rc::Rc;

use crate::check::{self, Answer};
use crate::origins;
use crate::rng::Rng;
use crate::tree::{self, Column, Expr, Label, Node, Op, Sheet, Table, Val, text_of};

/// The bytes of text that a sheet can have.
const MOST_TEXT: usize = 8_192;

/// The operation on any bytes. What check refuses comes first, then a text
/// that is too long, then a short output.
pub fn compact(bytes: &[u8], capacity: usize) -> (Answer, Vec<u8>) {
    let answer = check::check(bytes);
    if answer.number != 0 {
        return (answer, Vec::new());
    }
    let mut sheet = tree::decode(bytes);
    let (old, mut new, mut places) = (sheet.text.clone(), Vec::new(), HashMap::new());
    each_reference(&mut sheet, &mut |reference| {
        let string = text_of(&old, reference);
        if string.is_empty() {
            return 0;
        }
        let place = *places.entry(string).or_insert_with(|| {
            new.extend_from_slice(string);
            new.len() - string.len()
        });
        (place + 65_536 * string.len()) as u32
    });
    if new.len() > MOST_TEXT {
        return (Answer::refusal(14, 0), Vec::new());
    }
    sheet.text = new;
    let mut out = tree::encode(&sheet);
    if origins::edition(bytes) == 2 {
        let list = origins::list(bytes);
        out = origins::up(&out, |i| list[i]);
    }
    if out.len() > capacity {
        return (Answer::refusal(15, out.len() as u64), Vec::new());
    }
    (Answer { length: out.len() as u64, ..answer }, out)
}

/// Puts each reference of a sheet through a function: table names, column
/// names, then those in the plan, in the order of its cells, children before
/// their parent, a qualifier before its name.
fn each_reference(sheet: &mut Sheet, f: &mut impl FnMut(u32) -> u32) {
    sheet.tables.iter_mut().for_each(|t| t.name = f(t.name));
    sheet.columns.iter_mut().for_each(|c| c.name = f(c.name));
    in_node(&mut sheet.root, f);
}

fn in_node(node: &mut Node, f: &mut impl FnMut(u32) -> u32) {
    match node {
        Node::Aggregate { source, group_by, aggregates } => {
            in_node(source, f);
            group_by.iter_mut().for_each(|e| in_expr(e, f));
            aggregates.iter_mut().for_each(|(_, e)| in_expr(e, f));
        }
        Node::Filter { source, predicate } => {
            in_node(source, f);
            in_expr(predicate, f);
        }
        Node::HashJoin { left, right, .. } => {
            in_node(left, f);
            in_node(right, f);
        }
        Node::IndexLookup { alias, values: constants, .. } | Node::KeyLookup { alias, keys: constants, .. } => {
            constants.iter_mut().for_each(|v| in_value(v, f));
            alias.iter_mut().for_each(|a| *a = f(*a));
        }
        Node::Limit { source, .. } | Node::Offset { source, .. } | Node::Remap { source, .. } => in_node(source, f),
        Node::NestedLoopJoin { left, right, predicate, .. } => {
            in_node(left, f);
            in_node(right, f);
            predicate.iter_mut().for_each(|e| in_expr(e, f));
        }
        Node::Nothing { columns } => columns.iter_mut().for_each(|l| in_label(l, f)),
        Node::Order { source, key } => {
            in_node(source, f);
            key.iter_mut().for_each(|(e, _)| in_expr(e, f));
        }
        Node::Projection { source, items } => {
            in_node(source, f);
            for (e, label) in items {
                in_expr(e, f);
                in_label(label, f);
            }
        }
        Node::Scan { alias, filter, .. } => {
            filter.iter_mut().for_each(|e| in_expr(e, f));
            alias.iter_mut().for_each(|a| *a = f(*a));
        }
        Node::Values { rows } => rows.iter_mut().flatten().for_each(|e| in_expr(e, f)),
    }
}

fn in_expr(e: &mut Rc<Expr>, f: &mut impl FnMut(u32) -> u32) {
    match &mut Rc::make_mut(e).op {
        Op::Const(v) => in_value(v, f),
        Op::Col(_) => {}
        Op::One(_, x) => in_expr(x, f),
        Op::Two(_, l, r) => {
            in_expr(l, f);
            in_expr(r, f);
        }
    }
}

fn in_value(v: &mut Val, f: &mut impl FnMut(u32) -> u32) {
    if let Val::Str(reference) = v {
        *reference = f(*reference);
    }
}

fn in_label(label: &mut Label, f: &mut impl FnMut(u32) -> u32) {
    match label {
        Label::None => {}
        Label::Unqualified(name) => *name = f(*name),
        Label::Qualified(qualifier, name) => {
            *qualifier = f(*qualifier);
            *name = f(*name);
        }
    }
}

/// An accepted sheet of edition 1 over another text, with any references into
/// it: strings that are equal, lie in each other or are empty are frequent.
pub fn any_text(rng: &mut Rng, bytes: &[u8]) -> Vec<u8> {
    let size = rng.pick(&[0, 1, 3, 10, 60, 300, MOST_TEXT]);
    let letters = rng.pick(&[1, 2, 3, 26, 256]);
    let mut sheet = tree::decode(bytes);
    sheet.text = (0..size).map(|_| rng.below(letters) as u8).collect();
    let longest = rng.pick(&[1, 2, 9, 20, size]).min(size);
    each_reference(&mut sheet, &mut |_| {
        let any = rng.below(longest + 1);
        let length = rng.pick(&[0, 1, 2, 8, 9, 16, 17, longest, any]).min(longest);
        (rng.below(size - length + 1) + 65_536 * length) as u32
    });
    tree::encode(&sheet)
}

/// The most references that a sheet can have: 16 table names, 256 column names,
/// and two in each of 2,047 Labels.
const REFERENCES: usize = 4_366;

/// A Nothing of 2,047 Labels with these references.
fn labels(text: Vec<u8>, reference: impl Fn(usize) -> (usize, usize)) -> Vec<u8> {
    let at = |i: usize| {
        let (offset, length) = reference(i);
        (offset + 65_536 * length) as u32
    };
    let tables = (0..16).map(|i| Table { name: at(i), first: 16 * i as u32, count: 16, key: 0 }).collect();
    let columns = (16..272).map(|i| Column { name: at(i), kind: 0, index: false }).collect();
    let labels = (272..REFERENCES).step_by(2).map(|i| Label::Qualified(at(i), at(i + 1))).collect();
    tree::encode(&Sheet { text, tables, columns, root: Node::Nothing { columns: labels } })
}

/// Sheets with as many references as there can be, with what each is: those
/// for which looking for a string among those kept takes longest.
pub fn largest() -> Vec<(String, Vec<u8>)> {
    let mut out: Vec<(String, Vec<u8>)> = Vec::new();
    // 4,224 different strings that fill the text: there are no more, since 256 have one byte and the others two at least.
    let full: Vec<u8> = (0..=255).chain((0..3_968_u16).flat_map(u16::to_be_bytes)).collect();
    let place = |k: usize| if k < 256 { (k, 1) } else { (2 * k - 256, 2) };
    out.push(("4,224 strings of one and two bytes, then the last again".into(), labels(full.clone(), |i| place(i.min(4_223)))));
    out.push(("4,224 strings of one and two bytes, the last first".into(), labels(full.clone(), |i| place(4_223 - i.min(4_223)))));
    out.push(("4,224 strings, and one more of three bytes".into(), labels(full, |i| if i == 4_365 { (4_001, 3) } else { place(i.min(4_223)) })));
    // Strings that differ in two bytes alone: at their end, in front of their last eight bytes, or in front of a longer end.
    for n in [3, 4, 8, 9, 10, 12, 15, 16, 17, 18, 19, 20, 24, 25, 26, 32, 34, 40, 64, 128, 256, 512, 1_024, 4_096] {
        for back in BTreeSet::from([0, 8.min(n - 2), n / 2, n - 2]) {
            if back + 2 > n {
                continue;
            }
            let count = MOST_TEXT / n;
            let string = |k: usize| [vec![b'x'; n - 2 - back], (k as u16).to_be_bytes().to_vec(), vec![b'x'; back]].concat();
            let text = (0..count).flat_map(string).collect();
            out.push((format!("{count} strings of {n} bytes that differ {back} before the end"), labels(text, |i| (n * i.min(count - 1), n))));
        }
    }
    // Strings that are alike but for their length: zeros, of which those behind a string count as none.
    let lengths: Vec<usize> = (1..=127).collect();
    out.push(("127 strings of zeros".into(), labels(vec![0; MOST_TEXT], |i| (i % 64, lengths[i.min(126)]))));
    out.push(("one string of 4,096 bytes in 4,097 places".into(), labels(vec![b'x'; MOST_TEXT], |i| (i % 4_097, 4_096))));
    out.push(("one string of 8,192 bytes".into(), labels(vec![b'x'; MOST_TEXT], |_| (0, MOST_TEXT))));
    out.push(("empty strings".into(), labels(vec![b'x'; MOST_TEXT], |i| (i % 8_193, 0))));
    out.push(("overlapping strings, too long".into(), labels((0..MOST_TEXT).map(|i| (i % 251) as u8).collect(), |i| (i % 100, 100 + i % 83))));
    out
}
