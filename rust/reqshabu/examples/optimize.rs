//! Optimizes a sheet and shows its plan before and after:
//!
//!     cargo run --example optimize -- ../../examples/boot-file.sheet
use std::error::Error;
use std::{env, fs};

use reqshabu::{Plan, optimize_to_vec};

fn main() -> Result<(), Box<dyn Error>> {
    let file = env::args_os().nth(1).ok_or("usage: optimize FILE")?;
    let sheet = fs::read(file)?;
    println!("before:\n{}", Plan::read(&sheet)?);
    let optimized = optimize_to_vec(&sheet)?;
    println!("after, in {} bytes instead of {}:\n{}", optimized.len(), sheet.len(), Plan::read(&optimized)?);
    Ok(())
}
