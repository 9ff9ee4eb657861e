//! Links the proved library from the folder that AYRESOKUM_LIB names.
use std::env;

fn main() {
    println!("cargo::rerun-if-env-changed=AYRESOKUM_LIB");
    let folder =
        env::var("AYRESOKUM_LIB").expect("AYRESOKUM_LIB names the folder of libayresokum.a");
    println!("cargo::rerun-if-changed={folder}/libayresokum.a");
    println!("cargo::rustc-link-search=native={folder}");
    println!("cargo::rustc-link-lib=static=ayresokum");
}
