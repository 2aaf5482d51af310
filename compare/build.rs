//! Links the static libraries that `tools/archive sfs region_table` wrote. With `SFS_BEFORE` set to the static library of
//! another commit (an absolute path), that one is linked beside it under names of its own, so that the benchmark times both in one run. It
//! must have every call that is declared here, or the linker names the one that it lacks, and the same `SFS_API`, or the benchmark refuses
//! it: the declarations of this commit are used for both. Times of an older library come from the benchmark of its own commit.

use std::collections::BTreeSet;
use std::path::Path;
use std::process::Command;
use std::{env, fs};

const DECLARATIONS: &str = "src/library.rs";

fn main() {
    let root = env::var("CARGO_MANIFEST_DIR").unwrap_or_default();
    println!("cargo:rustc-link-search=native={root}/../target/staticlib");
    for library in ["sfs", "region_table"] {
        println!("cargo:rustc-link-lib=static={library}");
        println!("cargo:rerun-if-changed={root}/../target/staticlib/lib{library}.a");
    }
    println!("cargo:rerun-if-changed={DECLARATIONS}");
    println!("cargo:rerun-if-env-changed=SFS_BEFORE");
    println!("cargo:rustc-check-cfg=cfg(before)");
    if let Ok(library) = env::var("SFS_BEFORE") {
        let out = env::var("OUT_DIR").expect("cargo sets it");
        println!("cargo:rerun-if-changed={library}");
        println!("cargo:rustc-link-search=native={out}");
        println!("cargo:rustc-link-lib=static=before");
        println!("cargo:rustc-cfg=before");
        rename(&library, Path::new(&out));
    }
}

/// The other library with `before_` before each export, and the declarations that call it so.
fn rename(library: &str, out: &Path) {
    let text = fs::read_to_string(DECLARATIONS).expect("the declarations can be read");
    let words = text.split(|c: char| !c.is_alphanumeric() && c != '_').filter(|word| word.starts_with("sfs_"));
    let exports: BTreeSet<&str> = words.collect();
    let renames = exports.into_iter().map(|name| format!("--redefine-sym={name}=before_{name}"));
    let status = Command::new("objcopy").args(renames).arg(library).arg(out.join("libbefore.a")).status();
    assert!(status.is_ok_and(|status| status.success()), "objcopy renames the exports of {library}");
    let lines = text.lines().filter(|line| !line.starts_with("//!")).map(|line| line.replace("sfs_", "before_sfs_"));
    fs::write(out.join("before.rs"), lines.collect::<Vec<_>>().join("\n")).expect("the declarations can be written");
}
