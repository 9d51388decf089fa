//! Links the proved loader, `crates/exports/out/libexports.a`, and the kit's C library beside it.

use std::env;
use std::path::PathBuf;

fn main() {
    let here = PathBuf::from(env::var_os("CARGO_MANIFEST_DIR").expect("cargo tells the folder"));
    let exports = here.join("../crates/exports/out");
    let kit = PathBuf::from(env::var_os("RATTLE_LIB").unwrap_or("/opt/rattle/c".into()));
    println!("cargo::rerun-if-env-changed=RATTLE_LIB");
    for (folder, library) in [(&exports, "exports"), (&kit, "libc_c")] {
        println!("cargo::rustc-link-search=native={}", folder.display());
        println!("cargo::rustc-link-lib=static={library}");
        println!("cargo::rerun-if-changed={}", folder.join(format!("lib{library}.a")).display());
    }
}
