//! Finds the library, in this order: in the folder that TSAV_LIB_DIR names; where `pkg-config` has it; in the checkout that this crate is in, where
//! `bindings/library` puts it. The archive is taken, which a program needs nothing of any more; a shared library where there is no archive.

use std::{
    env,
    path::{Path, PathBuf},
    process::Command,
};

/// The files that the library may be, and how each is linked.
const FILES: [(&str, &str); 3] =
    [("libtsav.a", "static=tsav"), ("libexports.a", "static=exports"), ("libtsav.so", "dylib=tsav")];

fn main() {
    for name in ["TSAV_LIB_DIR", "PKG_CONFIG", "PKG_CONFIG_PATH", "PKG_CONFIG_LIBDIR", "PKG_CONFIG_SYSROOT_DIR"] {
        println!("cargo::rerun-if-env-changed={name}");
    }
    let here = env::var_os("CARGO_MANIFEST_DIR").unwrap();
    let checkout = Path::new(&here).join("../../target/staticlib");
    let folders = match env::var_os("TSAV_LIB_DIR") {
        Some(named) => vec![PathBuf::from(named)],
        None => packaged().into_iter().chain([checkout]).collect(),
    };
    for folder in &folders {
        for (file, link) in FILES {
            if folder.join(file).is_file() {
                println!("cargo::rerun-if-changed={}", folder.join(file).display());
                println!("cargo::rustc-link-search=native={}", folder.display());
                println!("cargo::rustc-link-lib={link}");
                return;
            }
        }
    }
    let folders: Vec<String> = folders.iter().map(|folder| folder.display().to_string()).collect();
    println!("cargo::error=the library is not in {}", folders.join(" or in "));
    println!("cargo::error=name its folder by TSAV_LIB_DIR, or let pkg-config find tsav, or run `bindings/library` in a checkout");
}

/// The folder that pkg-config names, if it is there and has the library.
fn packaged() -> Option<PathBuf> {
    let program = env::var_os("PKG_CONFIG").unwrap_or("pkg-config".into());
    let told = Command::new(program).args(["--variable=libdir", "tsav"]).output().ok()?;
    let folder = String::from_utf8(told.stdout).ok()?;
    (told.status.success() && !folder.trim().is_empty()).then(|| PathBuf::from(folder.trim()))
}
