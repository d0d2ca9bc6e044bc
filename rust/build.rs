//! Links the proved library: `tools/staticlib.sh` at the root writes it. `HIRQAZHOM_LIB` names another folder.
fn main() {
    println!("cargo:rerun-if-env-changed=HIRQAZHOM_LIB");
    let folder = std::env::var("HIRQAZHOM_LIB").unwrap_or_else(|_| format!("{}/../target/staticlib", env!("CARGO_MANIFEST_DIR")));
    println!("cargo:rerun-if-changed={folder}/libhirqazhom.a");
    println!("cargo:rustc-link-search=native={folder}");
    println!("cargo:rustc-link-lib=static=hirqazhom");
}
