//! Links libexpression_calls.a, which harness/expressions-build makes in harness/target/calls.
use std::path::Path;

fn main() {
    let folder = Path::new(env!("CARGO_MANIFEST_DIR")).join("../target/calls");
    println!("cargo:rustc-link-search=native={}", folder.display());
    println!("cargo:rustc-link-lib=static=expression_calls");
    println!("cargo:rerun-if-changed={}", folder.join("libexpression_calls.a").display());
}
