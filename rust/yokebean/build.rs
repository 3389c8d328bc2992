//! Links the proved library, which `rt lib` writes in crates/capi.

fn main() {
    let folder = format!("{}/../../crates/capi/out", std::env::var("CARGO_MANIFEST_DIR").unwrap());
    if !std::path::Path::new(&format!("{folder}/libcapi.a")).exists() {
        println!("cargo:warning=the proved library is not there yet: run `rt lib` in crates/capi");
    }
    println!("cargo:rustc-link-search=native={folder}");
    println!("cargo:rustc-link-lib=static=capi");
    println!("cargo:rerun-if-changed={folder}/libcapi.a");
}
