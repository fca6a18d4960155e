//! Links the static libraries that `tools/static-library.sh` wrote, and the kit's C library.
fn main() {
    let here = std::env::var("CARGO_MANIFEST_DIR").expect("cargo sets it");
    let kit = std::env::var("RATTLE_LIB").expect("run.sh sets it");
    println!("cargo:rustc-link-search=native={here}/../target/staticlib");
    println!("cargo:rustc-link-search=native={kit}");
    println!("cargo:rerun-if-env-changed=RATTLE_LIB");
    for name in ["frame", "carry"] {
        println!("cargo:rustc-link-lib=static={name}");
        println!("cargo:rerun-if-changed={here}/../target/staticlib/lib{name}.a");
    }
    println!("cargo:rustc-link-lib=static=libc_c");
}
