// The build script of each crate that compiles published files: finds their folder.
use std::path::Path;

const FILES: [&str; 13] = [
    "tetra-core/src/bitbuffer.rs",
    "tetra-core/src/tdma_time.rs",
    "tetra-core/src/tx_receipt.rs",
    "tetra-pdus/src/umac/pdus/mac_resource.rs",
    "tetra-pdus/src/umac/pdus/mac_end_dl.rs",
    "tetra-pdus/src/umac/fields/channel_allocation.rs",
    "tetra-pdus/src/umac/enums/reservation_requirement.rs",
    "tetra-pdus/src/umac/enums/basic_slotgrant_cap_alloc.rs",
    "tetra-pdus/src/umac/enums/basic_slotgrant_granting_delay.rs",
    "tetra-entities/src/umac/subcomp/bs_sched.rs",
    "tetra-entities/src/umac/subcomp/bs_frag.rs",
    "tetra-entities/src/umac/subcomp/fillbits.rs",
    "tetra-entities/src/umac/subcomp/circuit_mgr.rs",
];

fn main() {
    println!("cargo:rerun-if-env-changed=FLOW_SRC");
    let here = std::env::var("CARGO_MANIFEST_DIR").unwrap();
    let folder = std::env::var("FLOW_SRC").unwrap_or(format!("{here}/../../../../shared/docs/src/crates"));
    for file in FILES {
        let path = format!("{folder}/{file}");
        assert!(Path::new(&path).is_file(), "{path} is not there: FLOW_SRC names the folder of the published crates");
        println!("cargo:rerun-if-changed={path}");
    }
    println!("cargo:rustc-env=FLOW_SRC={folder}");
}
