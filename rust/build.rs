//! Finds the proved library's object for the machine at hand and hands it, as an archive, to whatever links this crate.

use std::collections::BTreeSet;
use std::path::{Path, PathBuf};
use std::process::{exit, Command};
use std::{env, fs};

/// Where the functions are declared, and so their names.
const DECLARATIONS: &str = "src/ffi.rs";

fn main() {
    println!("cargo:rerun-if-env-changed=FUNGALCOVE_LIBRARY");
    println!("cargo:rerun-if-changed=build.rs");
    println!("cargo:rerun-if-changed={}", DECLARATIONS);
    let object = object();
    println!("cargo:rerun-if-changed={}", object.display());
    let out = PathBuf::from(required("OUT_DIR"));
    let archive = archive(&names(&read_text(DECLARATIONS)), &read(&object));
    let path = out.join("libfungal.a");
    fs::write(&path, archive).unwrap_or_else(|error| fail(&format!("{}: {}", path.display(), error)));
    println!("cargo:rustc-link-search=native={}", out.display());
    println!("cargo:rustc-link-lib=static=fungal");
}

/// A variable that cargo sets for every build script.
fn required(variable: &str) -> String {
    env::var(variable).unwrap_or_else(|_| fail(&format!("{} is not set: build with cargo", variable)))
}

fn read(path: &Path) -> Vec<u8> {
    fs::read(path).unwrap_or_else(|error| fail(&format!("{}: {}", path.display(), error)))
}

fn read_text(path: &str) -> String {
    String::from_utf8_lossy(&read(Path::new(path))).into_owned()
}

fn fail(why: &str) -> ! {
    eprintln!("fungalcove: {}", why);
    exit(1)
}

/// The object's path; the library is made where it is missing and no other folder was named.
fn object() -> PathBuf {
    let wasm = required("CARGO_CFG_TARGET_ARCH") == "wasm32";
    if !wasm && required("TARGET") != required("HOST") {
        fail("the library's objects are for this computer and for wasm32 only");
    }
    let name = if wasm { "exports.wasm.o" } else { "exports.native.o" };
    let root = Path::new(&required("CARGO_MANIFEST_DIR")).join("..");
    let named = env::var_os("FUNGALCOVE_LIBRARY").map(PathBuf::from);
    let object = named.clone().unwrap_or_else(|| root.join("target/library")).join(name);
    if !object.exists() && named.is_none() {
        make_library(&root);
    }
    if !object.exists() {
        let path = object.display();
        fail(&format!("there is no {}: run scripts/library, or name its folder in FUNGALCOVE_LIBRARY", path));
    }
    object
}

fn make_library(root: &Path) {
    let made = Command::new("sh").arg("scripts/library").current_dir(root).status();
    if !made.map_or(false, |status| status.success()) {
        fail("scripts/library made no library; it needs the Rattle toolchain, rt, on the PATH");
    }
}

/// The names of the library's functions.
fn names(declarations: &str) -> BTreeSet<&str> {
    let words = declarations.split(|c: char| !c.is_ascii_alphanumeric() && c != '_');
    words.filter(|word| word.starts_with("fungal_")).collect()
}

/// An archive of the one object, with an index of `names`. It is put together here because the usual tool, GNU's ar, makes no
/// index for wasm32, and the linker wants one.
fn archive(names: &BTreeSet<&str>, object: &[u8]) -> Vec<u8> {
    let mut texts: Vec<u8> = names.iter().flat_map(|name| name.bytes().chain([0])).collect();
    let index_length = 4 + 4 * names.len() + texts.len();
    texts.resize(texts.len() + index_length % 2, 0);

    let mut out = b"!<arch>\n".to_vec();
    out.extend(member("/", index_length + index_length % 2));
    let object_starts = (out.len() + 4 + 4 * names.len() + texts.len()) as u32;
    out.extend((names.len() as u32).to_be_bytes());
    names.iter().for_each(|_| out.extend(object_starts.to_be_bytes()));
    out.extend(texts);
    out.extend(member("exports.o/", object.len()));
    out.extend(object);
    out.resize(out.len() + object.len() % 2, b'\n');
    out
}

/// The 60 bytes that a member of an archive starts with: name, time, owner, group, mode, length.
fn member(name: &str, length: usize) -> Vec<u8> {
    format!("{:<16}{:<12}{:<6}{:<6}{:<8}{:<10}`\n", name, 0, 0, 0, 644, length).into_bytes()
}
