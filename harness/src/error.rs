//! Stands in for toyDB's error type: the optimizers only build and hand on
//! `InvalidInput` and `InvalidData`.

use std::fmt::{Display, Formatter};

/// An error with toyDB's own message.
#[derive(Clone, Debug, PartialEq)]
pub enum Error {
    /// The data isn't what it should be.
    InvalidData(String),
    /// The user's input is at fault. What folding refuses is one of these.
    InvalidInput(String),
}

/// toyDB's result type.
pub type Result<T> = std::result::Result<T, Error>;

impl Display for Error {
    fn fmt(&self, f: &mut Formatter<'_>) -> std::fmt::Result {
        match self {
            Self::InvalidData(message) | Self::InvalidInput(message) => f.write_str(message),
        }
    }
}

impl std::error::Error for Error {}

// LIKE compiles a pattern; the tag isn't carried, but the file must compile.
impl From<regex::Error> for Error {
    fn from(err: regex::Error) -> Self {
        Self::InvalidInput(err.to_string())
    }
}

/// Returns an invalid data error, as in toyDB.
#[macro_export]
macro_rules! errdata {
    ($($args:tt)*) => { $crate::error::Error::InvalidData(format!($($args)*)).into_err() };
}

/// Returns an invalid input error, as in toyDB.
#[macro_export]
macro_rules! errinput {
    ($($args:tt)*) => { $crate::error::Error::InvalidInput(format!($($args)*)).into_err() };
}

impl Error {
    /// Wraps the error for the two macros, whose result type is the caller's.
    pub fn into_err<T>(self) -> Result<T> {
        Err(self)
    }
}
