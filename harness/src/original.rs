//! Runs toyDB's own optimizers on an accepted sheet.

use std::collections::HashMap;
use std::panic::{AssertUnwindSafe, catch_unwind};

use crate::sheet::{self, Texts};
use crate::sql::planner::{Node, OPTIMIZERS, Plan};
use crate::tree::Cell;

/// All five passes, beside the passes 1 to 5.
pub const ALL: u32 = 6;

/// What toyDB gave.
#[derive(Clone, Debug, PartialEq)]
pub enum Outcome {
    /// A plan, as its cells and its column count.
    Plan { cells: Vec<Cell>, columns: usize },
    /// An error, as its message.
    Error(String),
    /// A panic, as its message.
    Panic(String),
    /// A text that isn't UTF-8: toyDB isn't consulted.
    NotUtf8,
    /// The tagged run took another way than the bare one: references unknown.
    Ambiguous,
}

/// What one run gave, before it is encoded.
enum Ran {
    Node(Node),
    Error(String),
    Panic(String),
}

/// Optimizes by one pass (1 to 5) or all of them, as toyDB does.
fn optimize(node: Node, pass: u32) -> Ran {
    let run = || match pass {
        ALL => match Plan::Select(node).optimize()? {
            Plan::Select(node) => Ok(node),
            _ => unreachable!("a Select stays one"),
        },
        _ => OPTIMIZERS[pass as usize - 1].optimize(node),
    };
    let result: std::thread::Result<crate::error::Result<Node>> = quietly(run);
    match result {
        Ok(Ok(node)) => Ran::Node(node),
        Ok(Err(err)) => Ran::Error(err.to_string()),
        Err(panic) => {
            Ran::Panic(match (panic.downcast_ref::<String>(), panic.downcast_ref::<&str>()) {
                (Some(s), _) => s.clone(),
                (_, Some(s)) => s.to_string(),
                _ => String::new(),
            })
        }
    }
}

thread_local! {
    static QUIET: std::cell::Cell<bool> = const { std::cell::Cell::new(false) };
}

/// Keeps panics of toyDB off standard error: they are answers here.
pub fn silence_panics() {
    let loud = std::panic::take_hook();
    std::panic::set_hook(Box::new(move |info| {
        if !QUIET.get() {
            loud(info);
        }
    }));
}

/// Runs toyDB's code, whose panics are caught and quiet.
pub fn quietly<T>(work: impl FnOnce() -> T) -> std::thread::Result<T> {
    QUIET.set(true);
    let result = catch_unwind(AssertUnwindSafe(work));
    QUIET.set(false);
    result
}

/// Runs toyDB on an accepted sheet.
pub fn run(bytes: &[u8], pass: u32) -> Outcome {
    let folds = pass == 1 || pass == ALL;
    let texts = if folds { Texts::TaggedForFolding } else { Texts::Tagged };
    let (Some(bare), Some(tagged)) =
        (sheet::decode(bytes, Texts::Bare), sheet::decode(bytes, texts))
    else {
        return Outcome::NotUtf8;
    };
    match (optimize(bare, pass), optimize(tagged, pass)) {
        (Ran::Node(bare), Ran::Node(tagged)) => {
            let reference = |text: &str| sheet::untag(text).map(|(_, reference)| reference);
            let Some(cells) = sheet::encode(&tagged, &reference) else {
                return Outcome::Ambiguous;
            };
            if shape(&bare, false) != shape(&tagged, true) {
                return Outcome::Ambiguous;
            }
            Outcome::Plan { cells, columns: tagged.columns() }
        }
        (Ran::Error(bare), Ran::Error(_)) => Outcome::Error(bare),
        (Ran::Panic(bare), Ran::Panic(_)) => Outcome::Panic(bare),
        _ => Outcome::Ambiguous,
    }
}

/// A plan's cells with each text as a number of its own, and the texts.
fn shape(node: &Node, tagged: bool) -> Option<(Vec<Cell>, Vec<String>)> {
    let seen = std::cell::RefCell::new((HashMap::<String, u32>::new(), Vec::new()));
    let cells = sheet::encode(node, &|text| {
        let text = if tagged { sheet::untag(text)?.0 } else { text };
        let (numbers, list) = &mut *seen.borrow_mut();
        let next = numbers.len() as u32;
        Some(*numbers.entry(text.to_string()).or_insert_with(|| {
            list.push(text.to_string());
            next
        }))
    })?;
    Some((cells, seen.into_inner().1))
}

/// Runs work that recurses as deep as a plan can be, on a stack that holds it.
pub fn on_deep_stack<T: Send>(work: impl FnOnce() -> T + Send) -> T {
    std::thread::scope(|scope| {
        std::thread::Builder::new()
            .stack_size(1 << 30)
            .spawn_scoped(scope, work)
            .expect("thread")
            .join()
            .unwrap_or_else(|_| std::process::exit(2))
    })
}
