//! Copies the published files of yuvutils-rs 0.8.3 from the folder that YUVUTILS_SOURCE names to the build's own folder, with the
//! precision set to the one that is measured, and links the proved library from the folder that AYRESOKUM_LIB names.
use std::process::Command;
use std::{env, fs, path::Path};

const FILES: [&str; 4] = [
    "built_coefficients.rs",
    "rgb_to_nv_p16.rs",
    "yuv_error.rs",
    "yuv_support.rs",
];
const LOOPS: &str = "rgb_to_nv_p16.rs";
const OWN_PRECISION: &str = "const PRECISION: i32 = 15;";
const MEASURED_PRECISION: &str = "const PRECISION: i32 = 13;";

fn variable(name: &str) -> String {
    env::var(name).unwrap_or_else(|error| panic!("{name}: {error}"))
}

/// A folder that the caller names.
fn folder(name: &str) -> String {
    println!("cargo::rerun-if-env-changed={name}");
    variable(name)
}

fn with_precision(text: &str) -> String {
    assert_eq!(
        text.matches(OWN_PRECISION).count(),
        1,
        "{LOOPS} has `{OWN_PRECISION}` exactly once"
    );
    text.replace(OWN_PRECISION, MEASURED_PRECISION)
}

fn copy(from: &Path, to: &Path) {
    for name in FILES {
        let path = from.join(name);
        println!("cargo::rerun-if-changed={}", path.display());
        let text =
            fs::read_to_string(&path).unwrap_or_else(|error| panic!("{}: {error}", path.display()));
        let text = if name == LOOPS {
            with_precision(&text)
        } else {
            text
        };
        fs::write(to.join(name), text).expect("the build's own folder can be written");
    }
    // The text asks about these, and all stay off.
    for feature in ["big_endian", "rayon", "fast_mode", "professional_mode"] {
        println!("cargo::rustc-check-cfg=cfg(feature, values(\"{feature}\"))");
    }
}

fn link(folder: &str) {
    println!("cargo::rerun-if-changed={folder}/libayresokum.a");
    println!("cargo::rustc-link-search=native={folder}");
    println!("cargo::rustc-link-lib=static=ayresokum");
}

fn name_compiler(rustc: &str) {
    let answer = Command::new(rustc)
        .arg("--version")
        .output()
        .expect("rustc says its version");
    let version = String::from_utf8_lossy(&answer.stdout);
    println!("cargo::rustc-env=COMPILER={}", version.trim());
}

fn main() {
    println!("cargo::rerun-if-changed=build.rs");
    copy(
        Path::new(&folder("YUVUTILS_SOURCE")),
        Path::new(&variable("OUT_DIR")),
    );
    link(&folder("AYRESOKUM_LIB"));
    name_compiler(&variable("RUSTC"));
}
