//! Links the static library of the index, which INDEX_LIBRARY names, and the toolchain's own, of the folder KIT.

fn main() {
    for name in ["INDEX_LIBRARY", "KIT"] {
        println!("cargo:rerun-if-env-changed={name}");
    }
    let library = std::env::var("INDEX_LIBRARY").expect("INDEX_LIBRARY");
    let kit = std::env::var("KIT").expect("KIT");
    println!("cargo:rerun-if-changed={library}");
    println!("cargo:rustc-link-arg={library}");
    println!("cargo:rustc-link-arg={kit}/c/liblibc_c.a");
}
