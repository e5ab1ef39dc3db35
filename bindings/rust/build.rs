//! Links libestrenwind.a: from the folder in ESTRENWIND_LIB_DIR, or else from where pkg-config says that it is installed. An installed one has to
//! be of this crate's version, since the crate has the sizes of its lines.

use std::env;
use std::path::PathBuf;
use std::process::Command;

fn main() {
    for variable in ["ESTRENWIND_LIB_DIR", "PKG_CONFIG", "PKG_CONFIG_PATH"] {
        println!("cargo::rerun-if-env-changed={variable}");
    }
    let folder = match env::var_os("ESTRENWIND_LIB_DIR") {
        Some(folder) => PathBuf::from(folder),
        None => installed(),
    };
    let archive = folder.join("libestrenwind.a");
    assert!(
        archive.is_file(),
        "{} is not there. Build the library (make build), or name its folder in ESTRENWIND_LIB_DIR.",
        archive.display()
    );
    println!("cargo::rerun-if-changed={}", archive.display());
    println!("cargo::rustc-link-search=native={}", folder.display());
    println!("cargo::rustc-link-lib=static=estrenwind");
}

fn installed() -> PathBuf {
    let program = env::var_os("PKG_CONFIG").unwrap_or("pkg-config".into());
    let module = concat!("estrenwind = ", env!("CARGO_PKG_VERSION"));
    let output = Command::new(&program)
        .args(["--print-errors", "--variable=libdir", module])
        .output();
    match output {
        Ok(output) if output.status.success() => {
            let folder = String::from_utf8(output.stdout).expect("a folder's name is text");
            PathBuf::from(folder.trim())
        }
        Ok(output) => panic!(
            "{module} is not installed where pkg-config looks: {}Set PKG_CONFIG_PATH, or name the folder of libestrenwind.a in ESTRENWIND_LIB_DIR.",
            String::from_utf8_lossy(&output.stderr)
        ),
        Err(error) => panic!(
            "{}: {error}. Name the folder of libestrenwind.a in ESTRENWIND_LIB_DIR.",
            program.to_string_lossy()
        ),
    }
}
