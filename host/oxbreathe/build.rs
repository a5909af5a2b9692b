//! Tells Cargo where the proved library is, in the folder OXBREATHE_LIB, in `dist` beside this file, as in a package, or in `dist` of the
//! repository, and what it was built from.

use std::env;
use std::fs;
use std::path::{Path, PathBuf};

fn main() {
    println!("cargo::rerun-if-env-changed=OXBREATHE_LIB");
    match library() {
        Ok(folder) => {
            println!("cargo::rustc-link-search=native={}", folder.display());
            println!("cargo::rerun-if-changed={}", folder.display());
            for (variable, word) in [("OXBREATHE_SOURCES", "sources "), ("OXBREATHE_KIT", "kit ")] {
                if let Some(told) = built(&folder, word) {
                    println!("cargo::rustc-env={variable}={told}");
                }
            }
        }
        Err(what) => println!("cargo::error={what}"),
    }
}

/// The folder of the library, or in one sentence why there is none.
fn library() -> Result<PathBuf, String> {
    let of = |name: &str| env::var(format!("CARGO_CFG_TARGET_{name}")).unwrap_or_default();
    let (machine, system) = (of("ARCH"), of("OS"));
    if (&*machine, &*system) != ("x86_64", "linux") {
        return Err(format!(
            "the proved library liboxbreathe.a is for x86-64 Linux and this build is for {machine} {system}: \
             build with --target x86_64-unknown-linux-gnu"
        ));
    }
    let shipped = || {
        let own = PathBuf::from(env::var_os("CARGO_MANIFEST_DIR").unwrap_or_default());
        let packaged = own.join("dist");
        if packaged.is_dir() { packaged } else { own.join("../../dist") }
    };
    let folder = env::var_os("OXBREATHE_LIB").map_or_else(shipped, PathBuf::from);
    if folder.join("liboxbreathe.a").is_file() {
        return Ok(folder);
    }
    Err(format!(
        "there is no liboxbreathe.a in {}: let OXBREATHE_LIB name the folder that has it, as dist/ of the repository does",
        folder.display()
    ))
}

/// What the file BUILT beside the library says behind a word.
fn built(folder: &Path, word: &str) -> Option<String> {
    let told = fs::read_to_string(folder.join("BUILT")).ok()?;
    told.lines().find_map(|line| line.strip_prefix(word)).map(str::to_string)
}
