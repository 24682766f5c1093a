//! Links the proved library, which `rt lib` puts into the out folder of crates/exports.

fn main() {
    let here = std::env::var("CARGO_MANIFEST_DIR").expect("cargo sets it");
    let folder = std::env::var("JUDGE_LIBRARY").unwrap_or(format!("{here}/../../crates/exports/out"));
    println!("cargo:rustc-link-search=native={folder}");
    println!("cargo:rustc-link-lib=static=exports");
    println!("cargo:rerun-if-changed={folder}/libexports.a");
    println!("cargo:rerun-if-env-changed=JUDGE_LIBRARY");
}
