// SPDX-License-Identifier: MIT OR Apache-2.0
//! Finds `liblatchsym.a`: in the folder that LATCHSYM_LIB_DIR names, in this crate's own `lib` under
//! the processor's name, as a release has it, in the folder of pkg-config, or in those of the system.
//! Says what to do where it is in none of them.

use std::{env, path::Path, process::Command};

fn main() {
    println!("cargo:rerun-if-env-changed=LATCHSYM_LIB_DIR");
    println!("cargo:rerun-if-env-changed=PKG_CONFIG_PATH");
    println!("cargo:rustc-link-lib=static=latchsym");
    // (docs.rs builds the pages alone, and has no library)
    if env::var_os("DOCS_RS").is_some() {
        return;
    }
    let folder = match env::var("LATCHSYM_LIB_DIR") {
        Ok(named) if has_library(&named) => named,
        Ok(named) => panic!("LATCHSYM_LIB_DIR is {named}, which has no liblatchsym.a"),
        Err(_) => own().or_else(of_pkg_config).or_else(of_system).unwrap_or_else(|| {
            panic!(
                "liblatchsym.a is not found. Install it by latchsym's `./install.sh PREFIX`, and set \
                 LATCHSYM_LIB_DIR=PREFIX/lib or PKG_CONFIG_PATH=PREFIX/lib/pkgconfig"
            )
        }),
    };
    println!("cargo:rustc-link-search=native={folder}");
    println!("cargo:rerun-if-changed={folder}/liblatchsym.a");
}

fn has_library(folder: &str) -> bool {
    Path::new(folder).join("liblatchsym.a").exists()
}

fn own() -> Option<String> {
    let processor = env::var("CARGO_CFG_TARGET_ARCH").ok()?;
    let folder = format!("{}/lib/{processor}", env::var("CARGO_MANIFEST_DIR").ok()?);
    has_library(&folder).then_some(folder)
}

fn of_pkg_config() -> Option<String> {
    let mut command = Command::new("pkg-config");
    let output = command.args(["--variable=libdir", "latchsym"]).output().ok()?;
    let folder = String::from_utf8(output.stdout).ok()?;
    let folder = folder.trim_end_matches('\n');
    (output.status.success() && has_library(folder)).then(|| folder.to_owned())
}

fn of_system() -> Option<String> {
    let arch = env::var("CARGO_CFG_TARGET_ARCH").ok()?;
    let folders = [
        "/usr/local/lib".to_owned(),
        format!("/usr/lib/{arch}-linux-gnu"),
        "/usr/lib64".to_owned(),
        "/usr/lib".to_owned(),
    ];
    folders.into_iter().find(|folder| has_library(folder))
}
