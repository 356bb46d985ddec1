//! Finds the static libraries of the probes that are timed: this tree's, and an earlier one's where
//! BEFORE_LIB_DIR names a folder with them.
use std::env;
use std::path::Path;

const PROBES: [&str; 3] = ["probe_sheet", "probe_listing", "probe_records"];

fn link(dir: &Path, prefix: &str) {
    let dir = dir.display();
    println!("cargo:rustc-link-search=native={dir}");
    for name in PROBES {
        println!("cargo:rerun-if-changed={dir}/lib{prefix}{name}.a");
        println!("cargo:rustc-link-lib=static={prefix}{name}");
    }
}

fn main() {
    println!("cargo:rerun-if-env-changed=PROBE_LIB_DIR");
    println!("cargo:rerun-if-env-changed=BEFORE_LIB_DIR");
    println!("cargo:rustc-check-cfg=cfg(before)");
    let given = env::var_os("PROBE_LIB_DIR").unwrap_or_else(|| "../../target/staticlib".into());
    link(&Path::new(env!("CARGO_MANIFEST_DIR")).join(given), "");
    if let Some(given) = env::var_os("BEFORE_LIB_DIR") {
        link(Path::new(&given), "before_");
        println!("cargo:rustc-cfg=before");
    }
}
