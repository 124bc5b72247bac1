//! Links the library: `libwuthracomb.a`, as `make install` names it, or `libstation.a`, as
//! `make library` does. It is looked for in the folder that `WUTHRACOMB_LIB_DIR` names, or else
//! where `make library` writes it in this tree.

use std::env;
use std::path::PathBuf;

const NAMES: [&str; 2] = ["wuthracomb", "station"];

fn main() {
    println!("cargo::rerun-if-changed=build.rs");
    let machine = env::var("CARGO_CFG_TARGET_ARCH").unwrap();
    if machine != "x86_64" {
        println!("cargo::error=the library is for x86-64, and this build is for {machine}");
        return;
    }
    println!("cargo::rerun-if-env-changed=WUTHRACOMB_LIB_DIR");
    let given = env::var_os("WUTHRACOMB_LIB_DIR").map(PathBuf::from);
    let folder = given.unwrap_or_else(|| {
        PathBuf::from(env::var_os("CARGO_MANIFEST_DIR").unwrap()).join("../target/staticlib")
    });
    for name in NAMES {
        let library = folder.join(format!("lib{name}.a"));
        println!("cargo::rerun-if-changed={}", library.display());
        if library.is_file() {
            println!("cargo::rustc-link-search=native={}", folder.display());
            println!("cargo::rustc-link-lib=static={name}");
            return;
        }
    }
    println!(
        "cargo::error={} has no libwuthracomb.a and no libstation.a: write it by `make library`, \
         or name its folder in WUTHRACOMB_LIB_DIR",
        folder.display()
    );
}
