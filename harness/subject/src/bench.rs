//! All five passes, bytes to bytes, beside the compiled Rust's `optimize` on the same plans, in one run.
use std::collections::HashMap;
use std::hint::black_box;
use std::rc::Rc;
use std::time::{Duration, Instant};

use harness::rng::Rng;
use harness::sheet::{self, Texts};
use harness::sql::planner::{Node as Theirs, Plan};
use harness::tree::{self, Column, Expr, Label, Node, Sheet, Table, Val, col, con, tag, two};
use harness::{extremes, generate, model};

fn scan(table: u32) -> Node {
    Node::Scan { table, alias: None, filter: None }
}

fn filter(source: Node, predicate: Rc<Expr>) -> Node {
    Node::Filter { source: Box::new(source), predicate }
}

fn join(left: Node, right: Node, predicate: Option<Rc<Expr>>) -> Node {
    Node::NestedLoopJoin { left: Box::new(left), right: Box::new(right), predicate, outer: false }
}

fn equal(a: Rc<Expr>, b: Rc<Expr>) -> Rc<Expr> {
    two(tag::EQUAL, a, b)
}

fn int(n: i64) -> Rc<Expr> {
    con(Val::Int(n))
}

/// Tables of three Integer columns, each with a name, the first the key, the second with an index.
fn over(root: Node) -> Sheet {
    let text = b"modemstiersfilesidmactier".to_vec();
    let name = |from: u32, to: u32| from + ((to - from) << 16);
    let names = [name(0, 6), name(6, 11), name(11, 16)];
    let columns = [name(16, 18), name(18, 21), name(21, 25)];
    let tables = (0..3).map(|t| Table { name: names[t as usize], first: 3 * t, count: 3, key: 0 }).collect();
    let columns = (0..9).map(|i| Column { name: columns[i % 3], kind: 1, index: i % 3 == 1 }).collect();
    Sheet { text, tables, columns, root }
}

/// n joins of three-column tables, left-deep, each on its right source's key.
fn joins(n: u32, on: bool) -> Node {
    (0..n).fold(scan(0), |left, i| join(left, scan((i + 1) % 3), on.then(|| equal(col(3 * i + 1), col(3 * i + 3)))))
}

/// The same, right-deep: each on its left source's second column.
fn joins_to_the_right(n: u32) -> Node {
    (0..n).fold(scan(0), |right, i| join(scan((i + 1) % 3), right, Some(equal(col(1), col(3)))))
}

/// All of the predicates in one.
fn all(predicates: impl Iterator<Item = Rc<Expr>>) -> Rc<Expr> {
    predicates.reduce(|l, r| two(tag::AND, l, r)).expect("a predicate")
}

/// A join of two tables on n pairs of columns, with n lookups of the left one's columns.
fn lookups(n: u32) -> Node {
    let wide = |first: u32| {
        let items = (0..n).map(|i| (col((first + i) % 3), Label::None)).collect();
        Node::Projection { source: Box::new(scan(first)), items }
    };
    let pairs = (0..n).map(|i| equal(col(i), col(n + i)));
    let given = (0..n).map(|i| equal(col(i), int(i64::from(i))));
    join(wide(0), wide(1), Some(all(pairs.chain(given))))
}

/// A join of two wide sources on n pairs of columns, with n lookups of a column that is in no pair.
fn lookups_of_another(n: u32) -> Node {
    let wide = |table: u32| Node::Remap { source: Box::new(scan(table)), targets: vec![Some(255), None, None] };
    let pairs = (0..n).map(|i| equal(col(i), col(256 + i)));
    let given = (0..n).map(|i| equal(col(255), int(i64::from(i))));
    join(wide(0), wide(1), Some(all(pairs.chain(given))))
}

fn filters(n: usize, source: Node, predicate: impl Fn(usize) -> Rc<Expr>) -> Node {
    (0..n).fold(source, |node, i| filter(node, predicate(i)))
}

fn projection(n: usize, source: Node) -> Node {
    let items = (0..n).map(|i| (two(tag::ADD, col((i % 3) as u32), two(tag::ADD, int(1), int(i as i64))), Label::None)).collect();
    Node::Projection { source: Box::new(source), items }
}

fn shapes() -> Vec<(String, Sheet)> {
    let mut out: Vec<(String, Sheet)> = Vec::new();
    let mut add = |name: &str, root: Node| out.push((name.into(), over(root)));
    add("Scan by key", filter(scan(0), equal(col(0), int(7))));
    add("two tables joined, key given", filter(join(scan(0), scan(1), Some(equal(col(2), col(3)))), equal(col(0), int(7))));
    add("three tables joined, two filters", filters(2, joins(2, true), |i| equal(col(3 * i as u32), int(7))));
    for n in [10, 50, 100] {
        add(&format!("{n} Filters over a join"), filters(n, join(scan(0), scan(1), None), |i| equal(col((i % 6) as u32), int(i as i64))));
    }
    for n in [10, 100, 340] {
        add(&format!("Projection of {n} Items to fold"), projection(n, scan(0)));
    }
    for n in [4, 40, 400] {
        add(&format!("{n} joins"), joins(n, true));
    }
    add("filter over 100 joins", filter(joins(100, true), equal(col(0), int(7))));
    for n in [4, 40, 400] {
        add(&format!("{n} right-deep joins"), joins_to_the_right(n));
    }
    for n in [10, 100] {
        add(&format!("a filter for each of {n} joins"), filter(joins(n, true), all((0..n).map(|i| equal(col(3 * i), int(7))))));
    }
    for n in [4, 16, 64, 160] {
        add(&format!("{n} equijoins and {n} lookups"), lookups(n));
    }
    for n in [4, 64, 250] {
        add(&format!("{n} equijoins and {n} lookups of another column"), lookups_of_another(n));
    }
    add("1000 Filters of a column over a Scan", filters(1000, scan(0), |_| col(0)));
    add("1000 Filters of a column over a join", filters(1000, join(scan(0), scan(1), None), |_| col(0)));
    for n in [10, 100, 400] {
        add(&format!("{n} joins, emptied"), Node::Limit { source: Box::new(joins(n, false)), limit: 0 });
        add(&format!("{n} joins, one side nothing"), {
            let never = Node::Scan { table: 0, alias: None, filter: Some(con(Val::Bool(false))) };
            (0..n).fold(never, |left, i| join(left, scan((i + 1) % 3), None))
        });
    }
    out
}

/// The best of several rounds of `work`, in nanoseconds a call. `ready` makes what a call uses up, off the clock.
fn best<T, R>(mut ready: impl FnMut() -> T, mut work: impl FnMut(T) -> R) -> f64 {
    let mut round = |calls: usize| -> Duration {
        let inputs: Vec<T> = (0..calls).map(|_| ready()).collect();
        let mut outputs = Vec::with_capacity(calls);
        let start = Instant::now();
        for input in inputs {
            outputs.push(black_box(work(black_box(input))));
        }
        start.elapsed()
    };
    let mut calls = 1;
    while calls < 4096 && round(calls) < Duration::from_millis(2) {
        calls *= 2;
    }
    (0..7).map(|_| round(calls).as_nanos() as f64 / calls as f64).fold(f64::INFINITY, f64::min)
}

fn optimized(node: Theirs) -> Option<Theirs> {
    match Plan::Select(node).optimize() {
        Ok(Plan::Select(node)) => Some(node),
        _ => None,
    }
}

/// The Rust's plan for a sheet, from bytes to bytes.
fn decoded_and_encoded(bytes: &[u8]) -> Option<Vec<u8>> {
    let numbers: HashMap<String, u32> = HashMap::new();
    let node = sheet::decode(bytes, Texts::Bare).expect("text");
    let cells = optimized(node).and_then(|n| sheet::encode(&n, &|t| Some(numbers.get(t).copied().unwrap_or(0))));
    cells.map(|cells| sheet::with_cells(bytes, &cells))
}

/// One row of the table; false if the library is slower than the Rust's `optimize` alone.
fn row(name: &str, bytes: &[u8], rust: bool) -> (f64, Option<f64>) {
    let mut output = vec![0; 45_332];
    let ours = best(|| (), |()| reqshabu::optimize(bytes, &mut output));
    let answer = model::all_five(bytes, 45_332).0;
    let cells = model::check(bytes).cells;
    let Some(node) = sheet::decode(bytes, Texts::Bare).filter(|_| rust) else {
        println!("| {name} | {} | {cells} | {ours:.0} | {:.1} | - | - | - | - |", answer.number, ours / cells.max(1) as f64);
        return (ours, None);
    };
    let alone = best(|| node.clone(), optimized);
    let whole = best(|| (), |()| decoded_and_encoded(bytes));
    println!(
        "| {name} | {} | {cells} | {ours:.0} | {:.1} | {alone:.0} | {:.2} | {whole:.0} | {:.2} |",
        answer.number,
        ours / cells.max(1) as f64,
        ours / alone,
        ours / whole
    );
    (ours, Some(alone))
}

/// `bench-all`: the table, and which sheets are slower than the Rust.
pub fn bench() -> bool {
    println!("| plan | answer | cells | all five, ns | ns a cell | Rust's optimize, ns | ratio | with decode and encode, ns | ratio |");
    println!("|---|---|---|---|---|---|---|---|---|");
    let mut slower = Vec::new();
    let mut worst: (f64, String) = (0.0, String::new());
    let mut see = |name: &str, bytes: &[u8], rust: bool| {
        let (ours, theirs) = row(name, bytes, rust);
        if theirs.is_some_and(|t| ours > t) {
            slower.push(name.to_string());
        }
        if ours > worst.0 {
            worst = (ours, name.to_string());
        }
    };
    for (name, sheet) in shapes() {
        // Emptying 400 joins takes the Rust long: cubic.
        see(&name, &tree::encode(&sheet), !name.starts_with("400 joins, "));
    }
    for size in [8, 30, 100, 300, 1000, 2000] {
        let near = (0..4000).map(|i| generate::bytes(&mut Rng::case(7, i))).filter(|s| model::all_five(s, 45_332).0.number == 0);
        if let Some(sheet) = near.min_by_key(|s| model::check(s).cells.abs_diff(size)) {
            see(&format!("random, about {size} cells"), &sheet, true);
        }
    }
    for (name, bytes) in extremes::list() {
        if model::check(&bytes).number == 0 {
            // How long the Rust takes on sheets at the limits is another table's matter: some take it minutes.
            see(&name, &bytes, false);
        }
    }
    println!();
    println!("the slowest: {} ({:.2} ms); slower than the Rust: {slower:?}", worst.1, worst.0 / 1e6);
    slower.is_empty() && worst.0 < 50e6
}

/// What every program from bytes to bytes does at the least: each byte of the sheet handed in has to be read, and each byte of the sheet handed out written. A copy
/// of the one handed out is no more than that. Nothing is decoded, checked or optimized here.
fn least_work(handed: &[u8], output: &mut [u8]) {
    output[..handed.len()].copy_from_slice(handed);
}

/// Nanoseconds a call on one sheet.
struct Times {
    /// the library's all five
    ours: f64,
    /// the Rust's `optimize` alone
    optimize: f64,
    /// the same with decode and encode
    whole: f64,
    /// the library's check
    check: f64,
    /// `least_work`
    least: f64,
}

fn nanoseconds(calls: usize, mut work: impl FnMut()) -> f64 {
    let start = Instant::now();
    (0..calls).for_each(|_| work());
    start.elapsed().as_nanos() as f64 / calls as f64
}

/// All of these in turns, the best of each. None where the Rust gives no plan.
fn times(bytes: &[u8], turns: usize) -> Option<Times> {
    let node = sheet::decode(bytes, Texts::Bare)?;
    let mut output = vec![0; 45_332];
    let once = Instant::now();
    optimized(node.clone())?;
    // Four milliseconds a turn, and at least one call.
    let calls = (4_000_000 / once.elapsed().as_nanos().max(1)).clamp(1, 1_000) as usize;
    let length = reqshabu::optimize(bytes, &mut output).ok()?.length as usize;
    let handed = output[..length].to_vec();
    let mut t = Times { ours: f64::INFINITY, optimize: f64::INFINITY, whole: f64::INFINITY, check: f64::INFINITY, least: f64::INFINITY };
    for _ in 0..turns {
        t.ours = t.ours.min(nanoseconds(calls, || {
            let _ = black_box(reqshabu::optimize(black_box(bytes), &mut output));
        }));
        let mut inputs: Vec<Theirs> = (0..calls).map(|_| node.clone()).collect();
        let mut outputs = Vec::with_capacity(calls);
        t.optimize = t.optimize.min(nanoseconds(calls, || {
            outputs.push(black_box(optimized(black_box(inputs.pop().expect("a copy for each call")))));
        }));
        t.whole = t.whole.min(nanoseconds(calls, || {
            black_box(decoded_and_encoded(black_box(bytes)));
        }));
        t.check = t.check.min(nanoseconds(calls, || {
            let _ = black_box(reqshabu::check(black_box(bytes)));
        }));
        t.least = t.least.min(nanoseconds(calls, || {
            least_work(black_box(&handed), black_box(&mut output));
        }));
    }
    Some(t)
}

/// How ratios are spread, and which are the largest; whether none is over 1.
fn spread(name: &str, mut ratios: Vec<(f64, u64, u64)>) -> bool {
    ratios.sort_by(|a, b| a.0.total_cmp(&b.0));
    let at = |part: f64| ratios[((ratios.len() - 1) as f64 * part) as usize].0;
    let slower = ratios.iter().filter(|r| r.0 > 1.0).count();
    println!(
        "{name}: {} sheets, least {:.2}, median {:.2}, 90 % {:.2}, 99 % {:.2}, largest {:.2}; {slower} over 1",
        ratios.len(),
        at(0.0),
        at(0.5),
        at(0.9),
        at(0.99),
        at(1.0)
    );
    for (ratio, cells, i) in ratios.iter().rev().take(5) {
        println!("    case {i}, {cells} cells: {ratio:.2}");
    }
    slower == 0
}

/// The number of column records of a sheet.
fn column_records(bytes: &[u8]) -> u32 {
    let word = |back: usize| u32::from_le_bytes(bytes[bytes.len() - back..][..4].try_into().expect("four bytes"));
    (word(12) - word(16)) / 16
}

/// `bench-random`: the library's time beside the Rust's on random sheets that all five passes hand out. Whether none takes longer than the Rust's way from
/// bytes to bytes.
pub fn random(n: u64, seed: u64) -> bool {
    let (mut alone, mut whole) = (Vec::new(), Vec::new());
    let (mut least, mut check) = (0, 0);
    for i in 0..n {
        let bytes = generate::bytes(&mut Rng::case(seed, i));
        if model::all_five(&bytes, 45_332).0.number != 0 {
            continue;
        }
        let Some(t) = times(&bytes, 5) else { continue };
        let cells = model::check(&bytes).cells;
        alone.push((t.ours / t.optimize, cells, i));
        whole.push((t.ours / t.whole, cells, i));
        if t.ours > t.optimize {
            least += u64::from(t.least > t.optimize);
            check += u64::from(t.least <= t.optimize && t.check + t.least > t.optimize);
            println!(
                "slower than optimize alone: case {i}, {cells} cells, {} columns: {:.0} ns, optimize {:.0}, check {:.0}, least {:.0}",
                column_records(&bytes),
                t.ours,
                t.optimize,
                t.check,
                t.least
            );
        }
    }
    spread("beside the Rust's optimize alone", alone);
    println!("    of those over 1, on {least} a copy of the sheet takes longer than optimize, on {check} more with the check");
    spread("with its decode and encode", whole)
}

/// A sheet with as much text, and as many tables and columns, as there can be.
fn full(root: Node) -> Sheet {
    let tables = (0..16).map(|t| Table { name: 0, first: 16 * t, count: 16, key: 0 }).collect();
    let columns = (0..256).map(|_| Column { name: 0, kind: 1, index: false }).collect();
    Sheet { text: vec![b'a'; 8_192], tables, columns, root }
}

/// `bench-least`: plans of which the Rust moves nearly all by a pointer. Once the sheet is long enough, any program from bytes to bytes takes longer than the
/// Rust's `optimize` alone, as a copy of the sheet does.
pub fn least() -> bool {
    println!("| plan | bytes | cells | all five, ns | check, ns | copy, ns | Rust's optimize alone, ns | copy by optimize | with decode and encode, ns | ratio |");
    println!("|---|---|---|---|---|---|---|---|---|---|");
    let nulls = |n: usize| Node::Aggregate { source: Box::new(scan(0)), group_by: vec![con(Val::Null); n], aggregates: Vec::new() };
    let mut sheets: Vec<(String, Sheet)> = [10, 100, 500, 1000, 2046].map(|n| (format!("Aggregate of {n} Nulls over a Scan"), over(nulls(n)))).into();
    sheets.push(("the same with every part full".into(), full(nulls(2046))));
    for (name, sheet) in sheets {
        let bytes = tree::encode(&sheet);
        let Some(t) = times(&bytes, 50) else { return false };
        let cells = model::check(&bytes).cells;
        println!(
            "| {name} | {} | {cells} | {:.0} | {:.0} | {:.0} | {:.0} | {:.2} | {:.0} | {:.2} |",
            bytes.len(),
            t.ours,
            t.check,
            t.least,
            t.optimize,
            t.least / t.optimize,
            t.whole,
            t.ours / t.whole
        );
    }
    true
}
