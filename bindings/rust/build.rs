// SPDX-License-Identifier: Apache-2.0
//! Finds the static library. It looks in the folder that CIBORIUM_LL_LIB_DIR names, and in the folder into which `make`
//! in the folder above puts it. It also looks in the release archive, and in the folder that pkg-config names.

use std::env;
use std::path::PathBuf;
use std::process::{exit, Command};

const NAME: &str = "libciborium_ll.a";

fn folder() -> Option<PathBuf> {
    if let Some(named) = env::var_os("CIBORIUM_LL_LIB_DIR") {
        return Some(named.into());
    }
    let above = PathBuf::from(env::var_os("CARGO_MANIFEST_DIR")?).join("..");
    let near = ["out", "lib"].map(|name| above.join(name));
    near.into_iter()
        .find(|folder| folder.join(NAME).exists())
        .or_else(installed)
}

/// Returns the name by which pkg-config finds no version with other calls.
fn name_with_interface() -> Option<String> {
    let [major, minor] =
        ["CARGO_PKG_VERSION_MAJOR", "CARGO_PKG_VERSION_MINOR"].map(|name| env::var(name).ok());
    let major = major?;
    Some(match &*major {
        "0" => format!("ciborium_ll-0.{}", minor?),
        _ => format!("ciborium_ll-{major}"),
    })
}

fn installed() -> Option<PathBuf> {
    let said = Command::new("pkg-config")
        .args(["--variable=libdir", &name_with_interface()?])
        .output()
        .ok()?;
    let folder = String::from_utf8(said.stdout).ok()?;
    (said.status.success()).then(|| folder.trim().into())
}

fn main() {
    println!("cargo:rerun-if-env-changed=CIBORIUM_LL_LIB_DIR");
    println!("cargo:rerun-if-env-changed=DOCS_RS");
    // On docs.rs the pages alone are built, and nothing is linked.
    if env::var_os("DOCS_RS").is_some() {
        return;
    }
    let folder = match folder() {
        Some(folder) if folder.join(NAME).exists() => folder,
        found => {
            let what = found.map_or(String::new(), |folder| format!(" in {}", folder.display()));
            eprintln!(
                "there is no {NAME}{what}: install it, or name its folder in CIBORIUM_LL_LIB_DIR"
            );
            exit(1);
        }
    };
    println!("cargo:rustc-link-search=native={}", folder.display());
    println!("cargo:rustc-link-lib=static=ciborium_ll");
    println!("cargo:rerun-if-changed={}", folder.join(NAME).display());
}
