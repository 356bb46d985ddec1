//! Finds the probes' static libraries: in PROBE_LIB_DIR, or where tools/libraries.sh puts them.
use std::env;
use std::path::Path;

/// Their crates, one to a line.
const PROBES: &str = include_str!("../probes.txt");

fn main() {
    println!("cargo:rerun-if-env-changed=PROBE_LIB_DIR");
    let given = env::var_os("PROBE_LIB_DIR").unwrap_or_else(|| "../../target/staticlib".into());
    let dir = Path::new(env!("CARGO_MANIFEST_DIR")).join(given);
    let dir = dir.display();
    println!("cargo:rustc-link-search=native={dir}");
    for name in PROBES.split_whitespace() {
        println!("cargo:rerun-if-changed={dir}/lib{name}.a");
        println!("cargo:rustc-link-lib=static={name}");
    }
}
