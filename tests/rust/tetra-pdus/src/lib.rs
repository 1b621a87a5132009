//! Six published files, and stand-ins for the PDUs and codes that they name.
#![allow(dead_code, unused_imports, unused_variables, unreachable_code, clippy::all)]

pub mod umac {
    pub mod enums {
        pub mod reservation_requirement {
            include!(concat!(env!("FLOW_SRC"), "/tetra-pdus/src/umac/enums/reservation_requirement.rs"));
        }
        pub mod basic_slotgrant_cap_alloc {
            include!(concat!(env!("FLOW_SRC"), "/tetra-pdus/src/umac/enums/basic_slotgrant_cap_alloc.rs"));
        }
        pub mod basic_slotgrant_granting_delay {
            include!(concat!(env!("FLOW_SRC"), "/tetra-pdus/src/umac/enums/basic_slotgrant_granting_delay.rs"));
        }
        pub use crate::stand_ins::{access_assign_dl_usage, access_assign_ul_usage, mac_resource_addr_type};
    }
    pub mod fields {
        pub mod channel_allocation {
            include!(concat!(env!("FLOW_SRC"), "/tetra-pdus/src/umac/fields/channel_allocation.rs"));
        }
        pub use crate::stand_ins::{EventLabel, basic_slotgrant};
    }
    pub mod pdus {
        pub mod mac_resource {
            include!(concat!(env!("FLOW_SRC"), "/tetra-pdus/src/umac/pdus/mac_resource.rs"));
        }
        pub mod mac_end_dl {
            include!(concat!(env!("FLOW_SRC"), "/tetra-pdus/src/umac/pdus/mac_end_dl.rs"));
        }
        pub use crate::stand_ins::{access_assign, access_assign_fr18, mac_frag_dl, mac_sync, mac_sysinfo};
    }
}

pub mod mle {
    pub mod pdus {
        pub use crate::stand_ins::{d_mle_sync, d_mle_sysinfo};
    }
}

mod stand_ins;
