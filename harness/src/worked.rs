//! Document 01's worked plans P1 to P10, on the compiled Rust and the model.

use std::rc::Rc;

use crate::model::{self, ALL};
use crate::original::{self, Outcome};
use crate::sheet;
use crate::sql::types::{Expression, Value};
use crate::tree::{self, Cell, Column, Expr, Node, Op, Sheet, Table, Val, col, con, one, tag, two};

fn int(i: i64) -> Rc<Expr> {
    con(Val::Int(i))
}

fn equal(l: Rc<Expr>, r: Rc<Expr>) -> Rc<Expr> {
    two(tag::EQUAL, l, r)
}

fn and(l: Rc<Expr>, r: Rc<Expr>) -> Rc<Expr> {
    two(tag::AND, l, r)
}

/// Values of one row.
fn row(list: Vec<Rc<Expr>>) -> Node {
    Node::Values { rows: vec![list] }
}

fn filter(source: Node, predicate: Rc<Expr>) -> Node {
    Node::Filter { source: Box::new(source), predicate }
}

fn join(left: Node, right: Node, predicate: Rc<Expr>) -> Node {
    let (left, right) = (Box::new(left), Box::new(right));
    Node::NestedLoopJoin { left, right, predicate: Some(predicate), outer: false }
}

fn scan(table: u32, filter: Option<Rc<Expr>>) -> Node {
    Node::Scan { table, alias: None, filter }
}

fn key_lookup(table: u32, key: i64) -> Node {
    Node::KeyLookup { table, alias: None, keys: vec![Val::Int(key)] }
}

/// A plan without text or tables.
fn bare(root: Node) -> Sheet {
    Sheet { text: vec![], tables: vec![], columns: vec![], root }
}

/// A plan over two tables `t(a)` and `u(b)` of one Integer column, the key.
fn tables(root: Node) -> Sheet {
    let reference = |at: u32| at | 1 << 16;
    let table = |at, first| Table { name: reference(at), first, count: 1, key: 0 };
    let column = |at| Column { name: reference(at), kind: 1, index: false };
    Sheet {
        text: b"taub".to_vec(),
        tables: vec![table(0, 0), table(2, 1)],
        columns: vec![column(1), column(3)],
        root,
    }
}

/// What document 01 says of a worked plan.
enum Says {
    Plan(Node),
    Refused(u64, u64),
    /// A plan where the Rust panics: document 01's departure.
    PlanNotPanic(Node),
}

/// The plans that are run as sheets: name, sheet, pass, what document 01 says.
fn plans() -> Vec<(&'static str, Sheet, u32, Says)> {
    let max = i64::MAX;
    let add = |l, r| row(vec![two(tag::ADD, int(l), int(r))]);
    let divide = |l, r| row(vec![two(tag::DIVIDE, l, r)]);
    let yes = con(Val::Bool(true));
    let p1 = filter(row(vec![int(1)]), and(yes.clone(), one(tag::NOT, con(Val::Bool(false)))));
    let p4 = equal(int(9_007_199_254_740_993), con(Val::float(9_007_199_254_740_992.0)));
    let five = || equal(col(0), int(5));
    let six = || equal(col(0), int(6));
    let columns = || equal(col(0), col(1));
    let p7 = filter(join(row(vec![int(1)]), scan(0, None), columns()), five());
    let p7_after =
        join(row(vec![int(1)]), scan(0, Some(and(five(), five()))), and(columns(), five()));
    let p8 = join(scan(0, None), scan(1, None), and(and(five(), six()), columns()));
    let p8_after = Node::HashJoin {
        left: Box::new(filter(key_lookup(0, 5), six())),
        right: Box::new(key_lookup(1, 6)),
        outer: false,
        left_column: 0,
        right_column: 0,
    };
    let p9 = scan(0, Some(equal(col(0), con(Val::Null))));
    let qualified = tree::Label::Qualified(1 << 16, 1 | 1 << 16);
    let p10 = || join(row(vec![int(1), int(2)]), row(vec![int(3), int(4)]), columns());
    vec![
        ("P1 all five", bare(p1), ALL, Says::Plan(row(vec![int(1)]))),
        ("P2 9223372036854775807 + 1", bare(add(max, 1)), 1, Says::Refused(11, 2)),
        ("P2 9223372036854775806 + 1", bare(add(max - 1, 1)), 1, Says::Plan(row(vec![int(max)]))),
        ("P3 1 / 0", bare(divide(int(1), int(0))), 1, Says::Refused(12, 2)),
        (
            "P3 1 / 0.0",
            bare(divide(int(1), con(Val::float(0.0)))),
            1,
            Says::Plan(row(vec![con(Val::float(f64::INFINITY))])),
        ),
        (
            "P4 9007199254740993 = 9007199254740992.0",
            bare(row(vec![p4])),
            1,
            Says::Plan(row(vec![yes])),
        ),
        ("P7 pass 2", tables(p7), 2, Says::Plan(p7_after)),
        ("P8 all five", tables(p8), ALL, Says::Plan(p8_after)),
        ("P9 all five", tables(p9), ALL, Says::Plan(Node::Nothing { columns: vec![qualified] })),
        ("P10 pass 4", bare(p10()), 4, Says::PlanNotPanic(p10())),
        ("P10 all five", bare(p10()), ALL, Says::PlanNotPanic(p10())),
    ]
}

/// The listing of a plan, as the listing program prints it.
pub fn listing(cells: &[Cell], bytes: u64, columns: u64) -> String {
    let mut out = format!("cells {} bytes {bytes} columns {columns}\n", cells.len());
    for (i, c) in cells.iter().enumerate() {
        out += &format!("{i} {} {} {} {} {}\n", c.tag, c.flag, c.a, c.b, c.c);
    }
    // W-210: cells by their tags, below 40, 40 to 49, 50 and above.
    let mut kinds = [0; 3];
    for c in cells {
        kinds[match c.tag {
            0..=39 => 0,
            40..=49 => 1,
            _ => 2,
        }] += 1;
    }
    out + &format!("kinds {} {} {} total {}\n", kinds[0], kinds[1], kinds[2], kinds.iter().sum::<u32>())
}

/// P1's listing in document 01, with document 02's totals.
const P1: &str = "cells 3 bytes 68 columns 1\n0 3 0 1 0 0\n1 45 0 1 0 0\n2 63 0 1 0 0\nkinds 1 1 1 total 3\n";

/// Runs all of them and prints what each side gives. False on a difference.
pub fn worked(mut put: impl FnMut(String)) -> bool {
    let mut good = true;
    let mut note = |name: &str, what: &str, right: bool| {
        good &= right;
        put(format!("{} {name}: {what}", if right { "ok " } else { "BAD" }));
    };
    for (name, sheet, pass, says) in plans() {
        let bytes = tree::encode(&sheet);
        let rust = original::run(&bytes, pass);
        let (answer, out) = match pass {
            ALL => model::all_five(&bytes, 45_332),
            _ => model::one_pass(&bytes, pass, 45_332),
        };
        match &says {
            Says::Refused(number, place) => {
                let wanted =
                    if *number == 11 { "integer overflow" } else { "can't divide by zero" };
                let right = rust == Outcome::Error(wanted.to_string());
                note(name, &format!("the Rust gives {rust:?}"), right);
                let right = (answer.number, answer.place) == (*number, *place);
                note(
                    name,
                    &format!("the model gives {} at cell {}", answer.number, answer.place),
                    right,
                );
            }
            Says::Plan(node) | Says::PlanNotPanic(node) => {
                let wanted = tree::cells(node);
                let line = |cells: &[Cell]| {
                    let list: Vec<String> = cells
                        .iter()
                        .map(|c| format!("{},{},{},{},{}", c.tag, c.flag, c.a, c.b, c.c))
                        .collect();
                    list.join("  ")
                };
                match (&says, &rust) {
                    (Says::PlanNotPanic(_), Outcome::Panic(said)) => {
                        note(name, &format!("the Rust panics, {said}: document 01 departs"), true)
                    }
                    (Says::Plan(_), Outcome::Plan { cells, .. }) => {
                        note(name, &format!("the Rust gives {}", line(cells)), *cells == wanted)
                    }
                    _ => note(name, &format!("the Rust gives {rust:?}"), false),
                }
                let right = answer.number == 0 && out == sheet::with_cells(&bytes, &wanted);
                note(
                    name,
                    &format!("the model gives {} cells as document 01 says", answer.cells),
                    right,
                );
                if name.starts_with("P1 ") {
                    let text = listing(&wanted, answer.length, answer.columns);
                    note(name, "the listing is document 01's", text == P1);
                }
            }
        }
    }

    // P5 and P6 speak of expressions, not plans.
    let (a, b, c, d) = (col(0), col(1), col(2), col(3));
    let not = |x| one(tag::NOT, x);
    let or = |l, r| two(tag::OR, l, r);
    let given = not(not(not(and(a.clone(), b.clone()))));
    let wanted = not(and(a.clone(), b.clone()));
    let rust = rust_expression(&given).into_nnf();
    note("P5 into_nnf", &format!("the Rust gives {rust}"), rust == rust_expression(&wanted));
    let model = model::into_nnf(&given);
    note(
        "P5 into_nnf",
        "the model gives the same",
        rust_expression(&model) == rust_expression(&wanted),
    );

    let given = or(or(and(a.clone(), b.clone()), c.clone()), d.clone());
    let wanted = or(and(or(a, c.clone()), or(b, c)), d);
    let rust = rust_expression(&given).into_cnf_vec();
    let right = rust == [rust_expression(&wanted)];
    note("P6 into_cnf_vec", &format!("the Rust gives {} conjunct: {}", rust.len(), rust[0]), right);
    let model = model::into_cnf(&model::into_nnf(&given), &mut 0, 2_048).expect("room");
    note(
        "P6 into_cnf_vec",
        "the model gives the same",
        rust_expression(&model) == rust_expression(&wanted),
    );
    good
}

/// An expression of columns and logic as toyDB has it.
fn rust_expression(e: &Expr) -> Expression {
    match &e.op {
        Op::Const(_) => Value::Null.into(),
        Op::Col(c) => Expression::Column(*c as usize),
        Op::One(_, x) => Expression::Not(rust_expression(x).into()),
        Op::Two(tag::AND, l, r) => {
            Expression::And(rust_expression(l).into(), rust_expression(r).into())
        }
        Op::Two(_, l, r) => Expression::Or(rust_expression(l).into(), rust_expression(r).into()),
    }
}

#[cfg(test)]
mod tests {
    #[test]
    fn all_as_document_01_says() {
        crate::original::silence_panics();
        let mut lines = Vec::new();
        assert!(super::worked(|line| lines.push(line)), "{lines:#?}");
    }
}
