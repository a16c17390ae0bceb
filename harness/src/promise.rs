//! The row promise on one sheet and tables: the six plans (the one handed in
//! and those after each pass in turn) read the same to the bit where the four
//! premises hold.

use std::cell::Cell;

use crate::model::{self, DOCUMENT_01, Rules};
use crate::rng::Rng;
use crate::rows::{self, Interner, Row, Trouble, World};
use crate::tree::{self, Column, Node, Sheet, Table, Val, col, con, tag, two};

/// What came of a case.
#[derive(Clone, Debug, PartialEq)]
pub enum Case {
    /// A step is refused by 11 to 14: no six plans.
    Refused,
    /// More rows than the reader takes on.
    TooMany,
    /// All premises hold and the six read the same. How many rows, and whether
    /// each of the passes 1 to 5 changed the plan.
    Kept { rows: usize, changed: [bool; 5] },
    /// All premises hold and two readings differ: the promise is broken.
    Broken(String),
    /// Some premises don't hold: outer joins, a failing expression, mixed
    /// kinds. And whether the six readings are the same all the same.
    Outside { outer: bool, fails: bool, mixed: bool, same: bool },
}

/// The six plans, or the pass that is refused.
pub fn six(sheet: &Sheet, rules: Rules) -> Result<Vec<Node>, u32> {
    let mut plans = vec![sheet.root.clone()];
    let mut at = sheet.clone();
    for pass in 1..=5 {
        at.root = model::optimize(&at, pass, rules).map_err(|_| pass)?.root;
        plans.push(at.root.clone());
    }
    Ok(plans)
}

/// Reads the six plans of a sheet over tables.
pub fn case(
    sheet: &Sheet,
    tables: Vec<Vec<Row>>,
    texts: &Interner,
    rule: u64,
    function: u64,
) -> Case {
    let Ok(plans) = six(sheet, DOCUMENT_01) else { return Case::Refused };
    read_six(sheet, &plans, tables, texts, rule, function)
}

/// Reads these six plans of a sheet over tables.
pub fn read_six(
    sheet: &Sheet,
    plans: &[Node],
    tables: Vec<Vec<Row>>,
    texts: &Interner,
    rule: u64,
    function: u64,
) -> Case {
    let world = World {
        text: &sheet.text,
        records: &sheet.tables,
        tables,
        texts,
        rule,
        function,
        most: 2_000,
        mixed: Cell::new(false),
    };
    let readings: Vec<_> = plans.iter().map(|plan| world.read(plan)).collect();
    if readings.contains(&Err(Trouble::TooMany)) {
        return Case::TooMany;
    }
    let outer = rows::has_outer(&sheet.root);
    let fails = readings.contains(&Err(Trouble::Fails));
    let mixed = world.mixed.get();
    let differs = (1..6).find(|&i| readings[i] != readings[0]);
    if outer || fails || mixed {
        return Case::Outside { outer, fails, mixed, same: differs.is_none() };
    }
    match differs {
        None => {
            let cells: Vec<_> = plans.iter().map(tree::cells).collect();
            let changed = std::array::from_fn(|i| cells[i] != cells[i + 1]);
            Case::Kept { rows: readings[0].as_ref().map_or(0, |rows| rows.len()), changed }
        }
        Some(pass) => {
            Case::Broken(format!("after pass {pass}: {:?}, not {:?}", readings[pass], readings[0]))
        }
    }
}

/// A random case of a seed.
pub fn random(seed: u64, n: u64) -> Case {
    let mut rng = Rng::case(seed ^ 0x2035, n);
    let mood = crate::generate::tame(&mut rng);
    let sheet = crate::generate::sheet(&mut rng, mood);
    let texts = Interner::default();
    let tables = rows::random_tables(&mut rng, &sheet, &texts);
    let (rule, function) = (rng.next(), rng.next());
    case(&sheet, tables, &texts, rule, function)
}

/// A plan over tables t and u of one column each, the key.
fn over(kinds: [u8; 2], root: Node) -> Sheet {
    let table = |first| Table { name: 0, first, count: 1, key: 0 };
    let column = |kind| Column { name: 0, kind, index: false };
    Sheet {
        text: vec![],
        tables: vec![table(0), table(1)],
        columns: vec![column(kinds[0]), column(kinds[1])],
        root,
    }
}

/// For each premise, the smallest case that breaks without it: what it shows,
/// and whether it does.
pub fn witnesses() -> Vec<(&'static str, bool)> {
    let texts = Interner::default();
    let scan = |table| Box::new(Node::Scan { table, alias: None, filter: None });
    let two53 = 1i64 << 53;
    let mut list = Vec::new();

    // A step refused: over an empty table the predicate is never met, so the
    // plan reads well, but folding refuses it and there is no second plan.
    let sum = two(tag::ADD, con(Val::Int(i64::MAX)), con(Val::Int(1)));
    let predicate = two(tag::EQUAL, sum, con(Val::Int(0)));
    let sheet = over([1, 1], Node::Filter { source: scan(0), predicate });
    let refused = case(&sheet, vec![vec![], vec![]], &texts, 0, 0) == Case::Refused;
    list.push((
        "no step refused: Filter(MAX + 1 = 0) over an empty Scan reads as no rows, \
         pass 1 refuses it by 11",
        refused,
    ));

    // An outer join: its own left conjunct is pushed into the left side.
    let predicate = two(tag::EQUAL, col(0), con(Val::Int(2)));
    let root = Node::NestedLoopJoin {
        left: scan(0),
        right: scan(1),
        predicate: Some(predicate),
        outer: true,
    };
    let tables = vec![vec![vec![Val::Int(1)]], vec![vec![Val::Int(1)]]];
    let outside = Case::Outside { outer: true, fails: false, mixed: false, same: false };
    let differs = case(&over([1, 1], root), tables, &texts, 0, 0) == outside;
    list.push((
        "no outer join: t(1) left joined to u(1) on #0 = 2 gives (1, Null), after pass 2 nothing",
        differs,
    ));

    // A failing expression: Limit 0 reads its source whole, Nothing reads none.
    let items = vec![(two(tag::DIVIDE, con(Val::Int(1)), col(0)), tree::Label::None)];
    let source = Box::new(Node::Projection { source: scan(0), items });
    let tables = vec![vec![vec![Val::Int(0)]], vec![]];
    let outside = Case::Outside { outer: false, fails: true, mixed: false, same: false };
    let differs =
        case(&over([1, 1], Node::Limit { source, limit: 0 }), tables, &texts, 0, 0) == outside;
    list.push((
        "no failing expression: Limit 0 over 1 / #0 with #0 = 0 fails, after pass 5 it is Nothing",
        differs,
    ));

    // Mixed kinds: a double equal to two Integers that aren't equal.
    let lookup = two(tag::EQUAL, col(0), con(Val::Int(two53)));
    let predicate = Some(two(tag::AND, lookup, two(tag::EQUAL, col(0), col(1))));
    let root = Node::NestedLoopJoin { left: scan(0), right: scan(1), predicate, outer: false };
    let tables = vec![vec![vec![Val::float(two53 as f64)]], vec![vec![Val::Int(two53 + 1)]]];
    let outside = Case::Outside { outer: false, fails: false, mixed: true, same: false };
    let differs = case(&over([2, 1], root), tables, &texts, 0, 0) == outside;
    list.push((
        "equalities of one kind: #0 = 2^53 AND #0 = #1 with Float 2^53 and Integer 2^53 + 1 \
         loses its row in pass 2",
        differs,
    ));
    list
}

#[cfg(test)]
mod tests {
    use super::*;

    #[test]
    fn each_premise_is_needed() {
        for (what, shown) in witnesses() {
            assert!(shown, "{what}");
        }
    }

    #[test]
    fn rows_are_kept() {
        for n in 0..3_000 {
            if let Case::Broken(what) = random(1, n) {
                panic!("case {n}: {what}");
            }
        }
    }
}
