//! toyDB's plans and their optimizers, from the files as published.

#[path = "../../../docs/src/src/sql/planner/optimizer.rs"]
pub mod optimizer;
#[path = "../../../docs/src/src/sql/planner/plan.rs"]
pub mod plan;

pub use optimizer::OPTIMIZERS;
pub use plan::{Aggregate, Direction, Node, Plan};

/// The planner, which is not carried over.
pub mod planner {
    use crate::error::Result;
    use crate::sql::engine::Catalog;
    use crate::sql::parser::ast;
    use crate::sql::planner::Plan;

    /// Builds plans from syntax trees.
    pub struct Planner<'a, C: Catalog>(#[allow(dead_code)] &'a C);

    impl<'a, C: Catalog> Planner<'a, C> {
        /// Creates a planner.
        pub fn new(catalog: &'a C) -> Self {
            Self(catalog)
        }

        /// Is never called here.
        pub fn build(self, _: ast::Statement) -> Result<Plan> {
            unreachable!("the planner is not carried over")
        }
    }
}
