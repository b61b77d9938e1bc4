//! Links the archive that `host/build` wrote.

fn main() {
    let root = std::env::var("CARGO_MANIFEST_DIR").expect("cargo sets it");
    println!("cargo:rustc-link-search=native={root}/../target/host/lib");
    println!("cargo:rustc-link-lib=static=kernelstill");
    println!("cargo:rerun-if-changed={root}/../target/host/lib/libkernelstill.a");
}
