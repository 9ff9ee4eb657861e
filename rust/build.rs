//! Links the proved library from the folder that AYRESOKUM_LIB names, or from the repository's build.
use std::env;
use std::path::PathBuf;

const VARIABLE: &str = "AYRESOKUM_LIB";
const FILE: &str = "libayresokum.a";

fn main() {
    println!("cargo::rerun-if-env-changed={VARIABLE}");
    let manifest = PathBuf::from(env::var_os("CARGO_MANIFEST_DIR").expect("cargo sets it"));
    let named = env::var_os(VARIABLE).unwrap_or("../build".into());
    let folder = manifest.join(named);
    let library = folder.join(FILE);
    println!("cargo::rerun-if-changed={}", library.display());
    if !library.is_file() {
        println!(
            "cargo::error={} is missing; `make lib` writes it to the repository's build; {VARIABLE} names another folder",
            library.display()
        );
        return;
    }
    println!("cargo::rustc-link-search=native={}", folder.display());
    println!("cargo::rustc-link-lib=static=ayresokum");
}
