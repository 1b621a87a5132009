// Links libslotrun_c.a, which `sh tools/static_library.sh slotrun_c` writes.
fn main() {
    let folder = format!("{}/../target/staticlib", std::env::var("CARGO_MANIFEST_DIR").unwrap());
    println!("cargo:rerun-if-changed={folder}/libslotrun_c.a");
    println!("cargo:rustc-link-search=native={folder}");
    println!("cargo:rustc-link-lib=static=slotrun_c");
}
