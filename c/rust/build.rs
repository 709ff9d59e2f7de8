//! Links libfiruvaik.a: of the folder in FIRUVAIK_LIB, or else of ../out, where c/build.sh puts it.
fn main() {
    println!("cargo:rerun-if-env-changed=FIRUVAIK_LIB");
    let here = std::env::var("CARGO_MANIFEST_DIR").expect("cargo names the folder");
    let folder = std::env::var("FIRUVAIK_LIB").unwrap_or(format!("{here}/../out"));
    println!("cargo:rerun-if-changed={folder}/libfiruvaik.a");
    println!("cargo:rustc-link-search=native={folder}");
    println!("cargo:rustc-link-lib=static=firuvaik");
}
