//! Finds libtrirast: in the folder that TRIRAST_LIB_DIR names, else by pkg-config, else in the repository's `lib`.
//!
//! The static library is linked, or the shared one if TRIRAST_SHARED is set.

use std::env;
use std::path::PathBuf;
use std::process::Command;

fn folder_by_pkg_config() -> Option<PathBuf> {
    let output = Command::new("pkg-config").args(["--variable=libdir", "trirast"]).output().ok()?;
    let folder = String::from_utf8(output.stdout).ok()?;
    output.status.success().then(|| PathBuf::from(folder.trim()))
}

fn folder_in_repository() -> PathBuf {
    let package = PathBuf::from(env::var_os("CARGO_MANIFEST_DIR").expect("cargo sets CARGO_MANIFEST_DIR"));
    package.join("../../../lib")
}

fn main() {
    for name in ["TRIRAST_LIB_DIR", "TRIRAST_SHARED", "PKG_CONFIG_PATH"] {
        println!("cargo:rerun-if-env-changed={name}");
    }
    let named = env::var_os("TRIRAST_LIB_DIR").map(PathBuf::from);
    let folder = named.or_else(folder_by_pkg_config).unwrap_or_else(folder_in_repository);
    let kind = if env::var_os("TRIRAST_SHARED").is_some() { "dylib" } else { "static" };
    println!("cargo:rerun-if-changed={}", folder.join("libtrirast.a").display());
    println!("cargo:rustc-link-search=native={}", folder.display());
    println!("cargo:rustc-link-lib={kind}=trirast");
}
