// Links libbs_sched_c.a, which `sh tools/static_library.sh bs_sched_c` writes. BS_SCHED_LIB names another folder that holds it.
fn main() {
    let here = std::env::var("CARGO_MANIFEST_DIR").unwrap();
    let folder = std::env::var("BS_SCHED_LIB").unwrap_or(format!("{here}/../../../target/staticlib"));
    println!("cargo:rerun-if-env-changed=BS_SCHED_LIB");
    println!("cargo:rerun-if-changed={folder}/libbs_sched_c.a");
    println!("cargo:rustc-link-search=native={folder}");
    println!("cargo:rustc-link-lib=static=bs_sched_c");
}
