//! The PDUs and codes that the published files name. Document 01 and EN 300 392-2 fix those that write bits; the others write nothing,
//! and nothing that is compared asks for them.
use tetra_core::{BitBuffer, TdmaTime, pdu_parse_error::PduParseErr};

/// Ten bits.
pub type EventLabel = u16;

pub mod basic_slotgrant {
    use super::*;
    use crate::umac::enums::basic_slotgrant_cap_alloc::BasicSlotgrantCapAlloc;
    use crate::umac::enums::basic_slotgrant_granting_delay::BasicSlotgrantGrantingDelay;

    /// "Grant octet: four bits capacity, four bits delay." (document 01; 21.5.6)
    #[derive(Debug, Clone, Copy, PartialEq, Eq)]
    pub struct BasicSlotgrant {
        pub capacity_allocation: BasicSlotgrantCapAlloc,
        pub granting_delay: BasicSlotgrantGrantingDelay,
    }

    impl BasicSlotgrant {
        pub fn from_bitbuf(buf: &mut BitBuffer) -> Result<Self, PduParseErr> {
            let capacity = buf.read_field(4, "capacity_allocation")?;
            let delay = buf.read_field(4, "granting_delay")?;
            Ok(BasicSlotgrant { capacity_allocation: capacity.try_into().unwrap(), granting_delay: delay.try_into().unwrap() })
        }

        pub fn to_bitbuf(&self, buf: &mut BitBuffer) {
            buf.write_bits(self.capacity_allocation.into_raw(), 4);
            buf.write_bits(self.granting_delay.into_raw(), 4);
        }
    }

    impl core::fmt::Display for BasicSlotgrant {
        fn fmt(&self, f: &mut core::fmt::Formatter<'_>) -> core::fmt::Result {
            write!(f, "{} {}", self.capacity_allocation, self.granting_delay)
        }
    }
}

pub mod mac_frag_dl {
    use super::*;

    /// "MAC-FRAG: 01, 0, fill" (document 01; 21.4.3.2)
    #[derive(Debug, Clone)]
    pub struct MacFragDl {
        pub fill_bits: bool,
    }

    impl MacFragDl {
        pub fn to_bitbuf(&self, buf: &mut BitBuffer) {
            buf.write_bits(0b010, 3);
            buf.write_bits(self.fill_bits as u64, 1);
        }
    }
}

pub mod mac_resource_addr_type {
    /// "Address types: 0 null, 1 SSI, 2 event label, 3 USSI, 4 SMI, 5 SSI and label, 6 SSI and marker, 7 SMI and label." (document 01;
    /// 21.4.3.1)
    #[derive(Debug, Clone, Copy, PartialEq, Eq)]
    pub enum MacResourceAddrType {
        NullPdu = 0,
        Ssi = 1,
        EventLabel = 2,
        Ussi = 3,
        Smi = 4,
        SsiAndEventLabel = 5,
        SsiAndUsageMarker = 6,
        SmiAndEventLabel = 7,
    }
    use MacResourceAddrType::*;

    impl TryFrom<u64> for MacResourceAddrType {
        type Error = ();
        fn try_from(x: u64) -> Result<Self, ()> {
            let all = [NullPdu, Ssi, EventLabel, Ussi, Smi, SsiAndEventLabel, SsiAndUsageMarker, SmiAndEventLabel];
            all.get(x as usize).copied().ok_or(())
        }
    }
}

pub mod access_assign_ul_usage {
    /// "Usage: 0 no half taken, 1 first only, 2 both, 3 any taken with a marker" (document 01), in this order; the last is not asked for.
    #[derive(Debug, Clone, Copy, PartialEq, Eq, Default)]
    pub enum AccessAssignUlUsage {
        CommonOnly,
        CommonAndAssigned,
        AssignedOnly,
        Traffic(u8),
        #[default]
        Unallocated,
    }
}

pub mod access_assign_dl_usage {
    #[derive(Debug, Clone, Copy, PartialEq, Eq, Default)]
    pub enum AccessAssignDlUsage {
        #[default]
        Unallocated,
        AssignedControl,
        CommonControl,
        Traffic(u8),
    }
}

/// A PDU that writes nothing.
macro_rules! writes_nothing {
    ($name:ident) => {
        impl $name {
            pub fn to_bitbuf(&self, _buf: &mut BitBuffer) {}
        }
    };
}

pub mod access_assign {
    use super::*;

    #[derive(Debug, Clone, Copy, Default)]
    pub struct AccessField {
        pub access_code: u8,
        pub base_frame_len: u8,
    }

    #[derive(Debug, Clone, Default)]
    pub struct AccessAssign {
        pub dl_usage: access_assign_dl_usage::AccessAssignDlUsage,
        pub ul_usage: access_assign_ul_usage::AccessAssignUlUsage,
        pub f1_af1: Option<AccessField>,
        pub f2_af2: Option<AccessField>,
        pub f2_af: Option<AccessField>,
    }
    writes_nothing!(AccessAssign);
}

pub mod access_assign_fr18 {
    use super::*;

    #[derive(Debug, Clone, Default)]
    pub struct AccessAssignFr18 {
        pub ul_usage: access_assign_ul_usage::AccessAssignUlUsage,
        pub f1_af1: Option<access_assign::AccessField>,
        pub f2_af2: Option<access_assign::AccessField>,
        pub f2_af: Option<access_assign::AccessField>,
    }
    writes_nothing!(AccessAssignFr18);
}

pub mod mac_sync {
    use super::*;

    #[derive(Debug, Clone, Default)]
    pub struct MacSync {
        pub time: TdmaTime,
    }
    writes_nothing!(MacSync);
}

pub mod mac_sysinfo {
    use super::*;

    #[derive(Debug, Clone, Default)]
    pub struct MacSysinfo {
        pub main_carrier: u16,
        pub hyperframe_number: Option<u16>,
    }
    writes_nothing!(MacSysinfo);
}

pub mod d_mle_sync {
    use super::*;

    #[derive(Debug, Clone, Default)]
    pub struct DMleSync;
    writes_nothing!(DMleSync);
}

pub mod d_mle_sysinfo {
    use super::*;

    #[derive(Debug, Clone, Default)]
    pub struct BsServiceDetails {
        pub system_wide_services: bool,
    }

    #[derive(Debug, Clone, Default)]
    pub struct DMleSysinfo {
        pub bs_service_details: BsServiceDetails,
    }
    writes_nothing!(DMleSysinfo);
}
