//! toyDB's module tree around the five files that are carried over. The files
//! themselves are compiled unchanged from docs/src; the rest are stubs that no
//! optimizer reaches.

pub mod planner;
pub mod types;

/// The storage interface, as far as schema.rs and plan.rs name it.
pub mod engine {
    use std::collections::BTreeSet;

    use crate::error::Result;
    use crate::sql::types::{Row, Table, Value};

    /// Looks up tables by name.
    pub trait Catalog {
        /// Returns a table, if it exists.
        fn get_table(&self, table: &str) -> Result<Option<Table>>;
    }

    /// A transaction that reads rows.
    pub trait Transaction: Catalog {
        /// Returns the rows with these keys.
        fn get(&self, table: &str, ids: &[Value]) -> Result<Vec<Row>>;
        /// Returns the keys of rows that hold these values.
        fn lookup_index(&self, table: &str, column: &str, values: &[Value])
        -> Result<BTreeSet<Value>>;
    }
}

/// The executor, which is not carried over.
pub mod execution {
    use crate::error::Result;
    use crate::sql::engine::Transaction;
    use crate::sql::planner::Plan;

    /// What a statement gives.
    pub struct ExecutionResult;

    /// Runs a plan.
    pub struct Executor<'a, T: Transaction>(#[allow(dead_code)] &'a T);

    impl<'a, T: Transaction> Executor<'a, T> {
        /// Creates an executor.
        pub fn new(txn: &'a T) -> Self {
            Self(txn)
        }

        /// Is never called here.
        pub fn execute(self, _: Plan) -> Result<ExecutionResult> {
            unreachable!("the executor is not carried over")
        }
    }
}

/// The parser, which is not carried over.
pub mod parser {
    /// The syntax tree, as far as value.rs and plan.rs name it.
    pub mod ast {
        /// An expression: only columns are built, from labels.
        pub enum Expression {
            /// A column, perhaps qualified by its table.
            Column(Option<String>, String),
        }

        /// A statement.
        pub struct Statement;

        /// A sort order direction.
        pub enum Direction {
            /// Smallest first.
            Ascending,
            /// Largest first.
            Descending,
        }
    }

    /// Whether a name needs no quotes. Only printing asks.
    pub fn is_ident(_: &str) -> bool {
        unreachable!("printing is not carried over")
    }
}
