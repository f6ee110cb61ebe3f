//! Links the engine: the archive that HEM_ZONE_LIB names, or the one that `./staticlib`
//! writes at the top of the repository.
use std::env;
use std::path::{Path, PathBuf};

const DEFAULT: &str = "../target/staticlib/libhem_zone.a";

fn archive() -> PathBuf {
    let here = PathBuf::from(env::var("CARGO_MANIFEST_DIR").expect("set by cargo"));
    match env::var_os("HEM_ZONE_LIB") {
        Some(path) => here.join(path),
        None => here.join(DEFAULT),
    }
}

/// The archive is copied under a name of its own, so that it may have any name where it stands.
fn link(archive: &Path) {
    let out = PathBuf::from(env::var("OUT_DIR").expect("set by cargo"));
    if let Err(e) = std::fs::copy(archive, out.join("libhem_zone_engine.a")) {
        println!(
            "cargo::error=the engine {} cannot be read ({e}): run `./staticlib` at the top of the \
             repository, or give the path of another archive in HEM_ZONE_LIB",
            archive.display()
        );
        return;
    }
    println!("cargo::rustc-link-search=native={}", out.display());
    println!("cargo::rustc-link-lib=static=hem_zone_engine");
    tell(&out);
}

/// What a dependent's build script may ask for: DEP_HEM_ZONE_ROOT and DEP_HEM_ZONE_INCLUDE.
fn tell(out: &Path) {
    let here = PathBuf::from(env::var("CARGO_MANIFEST_DIR").expect("set by cargo"));
    println!("cargo::metadata=root={}", out.display());
    println!("cargo::metadata=include={}", here.join("../include").display());
}

fn main() {
    let archive = archive();
    println!("cargo::rerun-if-env-changed=HEM_ZONE_LIB");
    println!("cargo::rerun-if-changed={}", archive.display());
    println!("cargo::rerun-if-changed=build.rs");
    link(&archive);
}
