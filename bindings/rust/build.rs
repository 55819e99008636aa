//! Finds the static library `libhondivole.a`: in the folder HONDIVOLE_LIB_DIR, where `./library` writes it in this repository, or where
//! pkg-config says that it is installed.

use std::env;
use std::path::PathBuf;
use std::process::Command;

const LIBRARY: &str = "libhondivole.a";

fn main() {
    for name in ["HONDIVOLE_LIB_DIR", "PKG_CONFIG", "PKG_CONFIG_PATH", "PKG_CONFIG_LIBDIR"] {
        println!("cargo::rerun-if-env-changed={name}");
    }
    let built = PathBuf::from(env::var_os("CARGO_MANIFEST_DIR").unwrap_or_default()).join("../../target/staticlib");
    let folder = match env::var_os("HONDIVOLE_LIB_DIR") {
        Some(folder) => PathBuf::from(folder),
        None if built.join(LIBRARY).is_file() => built,
        None => installed().unwrap_or(built),
    };
    let library = folder.join(LIBRARY);
    println!("cargo::rerun-if-changed={}", library.display());
    if !library.is_file() {
        println!(
            "cargo::error=the static library {} isn't there: run `./library` at the top of the repository, install the library where \
             pkg-config finds it (`make install`), or set HONDIVOLE_LIB_DIR to the folder that holds {LIBRARY}",
            library.display()
        );
        return;
    }
    println!("cargo::rustc-link-search=native={}", folder.display());
    println!("cargo::rustc-link-lib=static=hondivole");
}

/// The folder that pkg-config names; `None` where there is no pkg-config, or it knows no such library.
fn installed() -> Option<PathBuf> {
    let program = env::var_os("PKG_CONFIG").unwrap_or_else(|| "pkg-config".into());
    let output = Command::new(program).args(["--variable=libdir", "hondivole"]).output().ok()?;
    let folder = String::from_utf8(output.stdout).ok()?;
    (output.status.success() && !folder.trim().is_empty()).then(|| PathBuf::from(folder.trim()))
}
