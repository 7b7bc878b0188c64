//! Links the proved static library. `./build` writes it; BILVAKRONT_LIB names another folder that holds it.

fn main() {
    let here = std::env::var("CARGO_MANIFEST_DIR").unwrap();
    let folder = std::env::var("BILVAKRONT_LIB").unwrap_or(format!("{here}/../target"));
    println!("cargo:rustc-link-search=native={folder}");
    println!("cargo:rustc-link-lib=static=bilvakront");
    println!("cargo:rerun-if-changed={folder}/libbilvakront.a");
    println!("cargo:rerun-if-env-changed=BILVAKRONT_LIB");
}
