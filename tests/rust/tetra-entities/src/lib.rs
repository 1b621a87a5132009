//! Four published files, and beside two of them doors to what they keep private.
#![allow(dead_code, unused_imports, unused_variables, unreachable_code, clippy::all)]

pub mod lmac {
    pub mod components {
        pub mod scrambler {
            /// Stand-in: nothing that is compared is scrambled.
            pub const SCRAMB_INIT: u32 = 3;
        }
    }
}

pub mod umac {
    pub mod subcomp {
        pub mod fillbits {
            include!(concat!(env!("FLOW_SRC"), "/tetra-entities/src/umac/subcomp/fillbits.rs"));
        }
        pub mod circuit_mgr {
            include!(concat!(env!("FLOW_SRC"), "/tetra-entities/src/umac/subcomp/circuit_mgr.rs"));
        }
        pub mod bs_frag {
            include!(concat!(env!("FLOW_SRC"), "/tetra-entities/src/umac/subcomp/bs_frag.rs"));
            mod door {
                include!("frag_door.rs");
            }
        }
        pub mod bs_sched {
            include!(concat!(env!("FLOW_SRC"), "/tetra-entities/src/umac/subcomp/bs_sched.rs"));
            pub mod door {
                include!("sched_door.rs");
            }
        }
    }
}
