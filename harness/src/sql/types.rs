//! toyDB's types, from the files as published.

#[path = "../../../docs/src/src/sql/types/expression.rs"]
pub mod expression;
#[path = "../../../docs/src/src/sql/types/schema.rs"]
pub mod schema;
#[path = "../../../docs/src/src/sql/types/value.rs"]
pub mod value;

pub use expression::Expression;
pub use schema::{Column, Table};
pub use value::{DataType, Label, Row, Rows, Value};
