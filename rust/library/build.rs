//! Links libdowngrater.a from the folder DOWNGRATER_LIB, by default from target/staticlib at the top of the repository. Where there is no
//! library the crate builds without it, and says so.

use std::env;
use std::path::{Path, PathBuf};

fn main() {
    println!("cargo::rustc-check-cfg=cfg(downgrater_library)");
    println!("cargo::rerun-if-env-changed=DOWNGRATER_LIB");
    let here = env::var("CARGO_MANIFEST_DIR").expect("cargo sets it");
    let top = Path::new(&here).join("../..");
    let folder = env::var("DOWNGRATER_LIB").map_or(top.join("target/staticlib"), PathBuf::from);
    let file = folder.join("libdowngrater.a");
    println!("cargo::rerun-if-changed={}", file.display());
    if file.exists() {
        println!("cargo::rustc-cfg=downgrater_library");
        println!("cargo::rustc-link-search=native={}", folder.display());
        println!("cargo::rustc-link-lib=static=downgrater");
    } else {
        println!("cargo::warning=there is no {}: built without the library, and no call can be made. Run `tools/build lib` at the top of the repository, or set DOWNGRATER_LIB to the folder that has libdowngrater.a", file.display());
    }
}
