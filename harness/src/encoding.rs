//! Stands in for toyDB's storage encoding: a mark on what can be stored.

/// A value that can be encoded. No optimizer encodes one.
pub trait Value {}
