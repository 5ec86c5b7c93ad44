//! Links the static library `host`, which `rt lib` in `crates/host` writes to `crates/host/out`. `EMORIZUGU_LIBS` names
//! another folder that has it.

use std::env;

fn main() {
    let usual = concat!(env!("CARGO_MANIFEST_DIR"), "/../crates/host/out");
    let named = env::var("EMORIZUGU_LIBS").ok().filter(|folder| !folder.is_empty());
    let folder = named.unwrap_or_else(|| usual.to_string());
    println!("cargo:rerun-if-env-changed=EMORIZUGU_LIBS");
    println!("cargo:rustc-link-search=native={folder}");
    println!("cargo:rerun-if-changed={folder}/libhost.a");
    println!("cargo:rustc-link-lib=static=host");
}
