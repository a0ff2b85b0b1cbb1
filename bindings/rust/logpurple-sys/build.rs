//! Links the library that `bindings/build` has put into `bindings/out`, or else the one that
//! pkg-config finds as `sst`.

use std::env;
use std::path::{Path, PathBuf};
use std::process::Command;

fn main() {
    let here = env::var("CARGO_MANIFEST_DIR").expect("cargo says where the crate lies");
    let built = Path::new(&here).join("../../out");
    println!("cargo:rerun-if-changed={}", built.join("libsst.a").display());
    println!("cargo:rerun-if-env-changed=PKG_CONFIG_PATH");
    if built.join("libsst.a").exists() {
        link("static", &built);
        return;
    }
    let folders = folders_of_pkg_config();
    match folders.iter().find(|folder| folder.join("libsst.a").exists()) {
        Some(folder) => link("static", folder),
        None => {
            for folder in &folders {
                println!("cargo:rustc-link-search=native={}", folder.display());
            }
            println!("cargo:rustc-link-lib=dylib=sst");
        }
    }
}

fn link(kind: &str, folder: &Path) {
    println!("cargo:rustc-link-search=native={}", folder.display());
    println!("cargo:rustc-link-lib={kind}=sst");
}

// Returns the folders in which pkg-config finds the library.
fn folders_of_pkg_config() -> Vec<PathBuf> {
    let asked = Command::new("pkg-config").args(["--libs-only-L", "sst"]).output();
    match asked {
        Ok(answer) if answer.status.success() => String::from_utf8_lossy(&answer.stdout)
            .split_whitespace()
            .filter_map(|word| word.strip_prefix("-L").map(PathBuf::from))
            .collect(),
        _ => panic!("run bindings/build, or name the folder of sst.pc in PKG_CONFIG_PATH"),
    }
}
