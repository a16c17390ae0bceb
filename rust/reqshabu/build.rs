//! Links libreqshabu.a, which `tools/build reqshabu` puts into target/staticlib in the repository's root (or the archive in the folder that
//! REQSHABU_LIB_DIR names), and takes the version from the header, which is the one place that says it: cargo wants it in Cargo.toml too, and the two must agree.
use std::path::{Path, PathBuf};
use std::{env, fs};

fn main() {
    let root = Path::new(env!("CARGO_MANIFEST_DIR")).join("../..");
    println!("cargo:rerun-if-env-changed=REQSHABU_LIB_DIR");
    let folder = env::var_os("REQSHABU_LIB_DIR").map_or(root.join("target/staticlib"), PathBuf::from);
    println!("cargo:rustc-link-search=native={}", folder.display());
    println!("cargo:rustc-link-lib=static=reqshabu");
    println!("cargo:rerun-if-changed={}", folder.join("libreqshabu.a").display());

    let header = root.join("include/reqshabu.h");
    println!("cargo:rerun-if-changed={}", header.display());
    let text = fs::read_to_string(&header).expect("include/reqshabu.h");
    let line = text.lines().find(|line| line.starts_with("#define REQSHABU_VERSION ")).expect("REQSHABU_VERSION");
    let version = line.split('"').nth(1).expect("a version in quotes");
    assert_eq!(version, env!("CARGO_PKG_VERSION"), "the versions of include/reqshabu.h and Cargo.toml differ");
    println!("cargo:rustc-env=REQSHABU_VERSION={version}");
}
