//! Finds the engine's static library and links it.

use std::env;
use std::path::Path;

/// Where `tools/build host` leaves it, from this package.
const DEFAULT: &str = "../../target/staticlib";

fn main() {
    println!("cargo::rerun-if-changed=build.rs");
    println!("cargo::rerun-if-env-changed=FENSTUBBLE_LIB");
    if env::var_os("CARGO_FEATURE_SELF_TEST").is_some() {
        // The stand-in is part of the package.
        return;
    }
    let package = env::var_os("CARGO_MANIFEST_DIR").unwrap_or_default();
    let folder = env::var_os("FENSTUBBLE_LIB").unwrap_or_else(|| DEFAULT.into());
    let folder = Path::new(&package).join(folder);
    let library = folder.join("libhost.a");
    println!("cargo::rerun-if-changed={}", library.display());
    if !library.is_file() {
        println!(
            "cargo::error=the engine's library is not there: {}",
            library.display()
        );
        println!(
            "cargo::error=build it with `tools/build host`, or name its folder in FENSTUBBLE_LIB; \
             `--features self-test` does without it"
        );
        return;
    }
    println!("cargo::rustc-link-search=native={}", folder.display());
    println!("cargo::rustc-link-lib=static=host");
}
