// Links target/staticlib/libcrossbar.a and liboq.a, which `make library` writes.
fn main() {
    let here = std::env::var("CARGO_MANIFEST_DIR").unwrap();
    println!("cargo:rustc-link-search=native={here}/../target/staticlib");
    for library in ["crossbar", "oq"] {
        println!("cargo:rustc-link-lib=static={library}");
        println!("cargo:rerun-if-changed={here}/../target/staticlib/lib{library}.a");
    }
}
