//! Links the static libraries `host` and `test_drive`, each of which `rt lib` in its crate's folder writes to that crate's
//! `out`. `EMORIZUGU_LIBS` names another folder that has both.

use std::env;

fn main() {
    let crates = concat!(env!("CARGO_MANIFEST_DIR"), "/../crates");
    let named = env::var("EMORIZUGU_LIBS").ok().filter(|folder| !folder.is_empty());
    println!("cargo:rerun-if-env-changed=EMORIZUGU_LIBS");
    for name in ["host", "test_drive"] {
        let folder = named.clone().unwrap_or_else(|| format!("{crates}/{name}/out"));
        println!("cargo:rustc-link-search=native={folder}");
        println!("cargo:rerun-if-changed={folder}/lib{name}.a");
        println!("cargo:rustc-link-lib=static={name}");
    }
}
