// Links libbs_sched_c.a, which `sh tools/static_library.sh bs_sched_c` writes. BS_SCHED_LIB names another folder that holds it.
use std::env;
use std::path::PathBuf;

fn main() {
    let here = PathBuf::from(env::var("CARGO_MANIFEST_DIR").unwrap());
    let folder = env::var("BS_SCHED_LIB").map(PathBuf::from).unwrap_or(here.join("../target/staticlib"));
    let library = folder.join("libbs_sched_c.a");
    println!("cargo:rerun-if-env-changed=BS_SCHED_LIB");
    println!("cargo:rerun-if-changed={}", library.display());
    if !library.is_file() {
        eprintln!("{} is not there.", library.display());
        eprintln!("Run `sh tools/static_library.sh bs_sched_c` at the root of the repository, which writes target/staticlib/libbs_sched_c.a,");
        eprintln!("or set BS_SCHED_LIB to the folder that holds libbs_sched_c.a.");
        std::process::exit(1);
    }
    println!("cargo:rustc-link-search=native={}", folder.display());
    println!("cargo:rustc-link-lib=static=bs_sched_c");
}
