//! Links libestrenwind.a from the folder in ESTRENWIND_LIB_DIR, or from ../build. The archive
//! libcross_check.a beside it is linked by the tests that need it.

use std::env;
use std::path::PathBuf;

fn main() {
    println!("cargo::rerun-if-env-changed=ESTRENWIND_LIB_DIR");
    let folder = env::var_os("ESTRENWIND_LIB_DIR").map_or("../build".into(), PathBuf::from);
    let archive = folder.join("libestrenwind.a");
    let archive = archive.canonicalize().unwrap_or_else(|error| {
        panic!(
            "{}: {error}. Build the library first, or name its folder in ESTRENWIND_LIB_DIR.",
            archive.display()
        )
    });
    let folder = archive.parent().expect("a file lies in a folder");
    println!("cargo::rerun-if-changed={}", archive.display());
    let cross_check = folder.join("libcross_check.a");
    if cross_check.exists() {
        println!("cargo::rerun-if-changed={}", cross_check.display());
    }
    println!("cargo::rustc-link-search=native={}", folder.display());
    println!("cargo::rustc-link-lib=static=estrenwind");
}
