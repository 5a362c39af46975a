//! Links the library that reads by value, which `scripts/library byvalue` makes, beside that of the crate `fungalcove`.

use std::env;
use std::path::{Path, PathBuf};

fn main() {
    println!("cargo:rerun-if-env-changed=FUNGALCOVE_LIBRARY");
    println!("cargo:rerun-if-changed=build.rs");
    let set = |variable| env::var(variable).expect("cargo sets it for every build script");
    let name = if set("CARGO_CFG_TARGET_ARCH") == "wasm32" { "byvalue.wasm.o" } else { "byvalue.native.o" };
    let made = || Path::new(&set("CARGO_MANIFEST_DIR")).join("../target/library");
    let object = env::var_os("FUNGALCOVE_LIBRARY").map_or_else(made, PathBuf::from).join(name);
    assert!(object.exists(), "there is no {}: run scripts/library byvalue", object.display());
    println!("cargo:rerun-if-changed={}", object.display());
    println!("cargo:rustc-link-arg={}", object.display());
}
