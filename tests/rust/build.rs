//! Links the archive that `tools/build boccelarch` builds.

fn main() {
    let here = std::env::var("CARGO_MANIFEST_DIR").expect("cargo names the directory");
    let archives = format!("{here}/../../target/staticlib");
    println!("cargo:rerun-if-changed={archives}/libboccelarch.a");
    println!("cargo:rustc-link-search=native={archives}");
    println!("cargo:rustc-link-lib=static=boccelarch");
}
