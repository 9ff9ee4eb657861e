//! Reads the published files of yuvutils-rs 0.8.3 from the folder that YUVUTILS_SOURCE names and writes them to the build's own
//! folder: the loops once for each precision, with that one constant replaced, the rest as it is.
use std::{env, fs, path::Path};

const AS_IT_IS: [&str; 5] = [
    "built_coefficients.rs",
    "lib.rs",
    "rgb_to_nv_p16.rs",
    "yuv_error.rs",
    "yuv_support.rs",
];
const LOOPS: &str = "rgb_to_nv_p16.rs";
const PRECISIONS: [u32; 14] = [1, 2, 3, 4, 5, 6, 7, 8, 9, 10, 11, 12, 13, 15];
const OWN_PRECISION: u32 = 15;

fn constant(precision: u32) -> String {
    format!("const PRECISION: i32 = {precision};")
}

fn read(folder: &str, name: &str) -> String {
    let path = Path::new(folder).join(name);
    println!("cargo::rerun-if-changed={}", path.display());
    fs::read_to_string(&path).unwrap_or_else(|error| panic!("{}: {error}", path.display()))
}

fn write(name: &str, text: &str) {
    let folder = env::var("OUT_DIR").expect("cargo gives OUT_DIR");
    fs::write(Path::new(&folder).join(name), text).expect("the build's own folder can be written");
}

fn main() {
    println!("cargo::rerun-if-env-changed=YUVUTILS_SOURCE");
    let folder = env::var("YUVUTILS_SOURCE")
        .expect("YUVUTILS_SOURCE names the folder of the published files");
    for name in AS_IT_IS {
        write(name, &read(&folder, name));
    }
    let loops = read(&folder, LOOPS);
    let own = constant(OWN_PRECISION);
    assert_eq!(
        loops.matches(&own).count(),
        1,
        "{LOOPS} has `{own}` exactly once"
    );
    for precision in PRECISIONS {
        let text = loops.replace(&own, &constant(precision));
        write(&format!("loops_{precision}.rs"), &text);
    }
    // The text has both byte orders with `big_endian`; the other features that it asks about stay off.
    println!("cargo::rustc-cfg=feature=\"big_endian\"");
    for feature in ["big_endian", "rayon", "fast_mode", "professional_mode"] {
        println!("cargo::rustc-check-cfg=cfg(feature, values(\"{feature}\"))");
    }
}
