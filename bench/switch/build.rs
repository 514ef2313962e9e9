// Links libcrossbar.a and liboq.a, which `make library` writes, into the benchmark alone; the switches and their tests do
// without. CROSSBAR_LIBRARY in the environment names another folder to take them from.
fn main() {
    let here = std::env::var("CARGO_MANIFEST_DIR").unwrap();
    let folder = std::env::var("CROSSBAR_LIBRARY").unwrap_or(format!("{here}/../../target/staticlib"));
    for library in ["crossbar", "oq"] {
        println!("cargo:rustc-link-arg-bins={folder}/lib{library}.a");
        println!("cargo:rerun-if-changed={folder}/lib{library}.a");
    }
    println!("cargo:rerun-if-env-changed=CROSSBAR_LIBRARY");
}
