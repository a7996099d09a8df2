//! Finds the static library: in the folder that RELAY_STATICLIB names, else in ../target/staticlib. With RELAY_REFERENCE, a test beside
//! the reference is built too.
use std::env;
use std::path::PathBuf;

fn main() {
    println!("cargo::rerun-if-env-changed=RELAY_STATICLIB");
    println!("cargo::rerun-if-env-changed=RELAY_REFERENCE");
    println!("cargo::rustc-check-cfg=cfg(reference)");
    if env::var_os("RELAY_REFERENCE").is_some() {
        println!("cargo::rustc-cfg=reference");
    }
    let target =
        format!("{}-{}", env::var("CARGO_CFG_TARGET_ARCH").unwrap_or_default(), env::var("CARGO_CFG_TARGET_OS").unwrap_or_default());
    if target != "x86_64-linux" {
        println!("cargo::error=the static library is made for x86_64 Linux, not for {target}");
        return;
    }
    let beside = PathBuf::from(env!("CARGO_MANIFEST_DIR")).join("../target/staticlib");
    let folder = env::var_os("RELAY_STATICLIB").map_or(beside, PathBuf::from);
    let archive = folder.join("librelay.a");
    println!("cargo::rerun-if-changed={}", archive.display());
    if !archive.is_file() {
        println!(
            "cargo::error=no librelay.a in {}: run `tools/build relay` at the top of the repository, or set RELAY_STATICLIB to the folder that has it",
            folder.display()
        );
        return;
    }
    println!("cargo::rustc-link-search=native={}", folder.display());
}
