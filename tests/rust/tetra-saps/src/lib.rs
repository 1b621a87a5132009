//! Stand-ins alone: nothing of this crate was published.

pub mod control {
    pub mod call_control {
        use tetra_core::Direction;

        #[derive(Debug, Clone, Copy, PartialEq, Eq)]
        pub enum CircuitDlMediaSource {
            LocalLoopback,
            SwMI,
        }

        /// No circuit is ever made.
        #[derive(Debug, Clone)]
        pub struct Circuit {
            pub direction: Direction,
            pub carrier_num: u16,
            pub ts: u8,
            pub usage: u8,
            pub peer_carrier_num: Option<u16>,
            pub peer_ts: Option<u8>,
            pub dl_media_source: CircuitDlMediaSource,
        }
    }
}

pub mod tmv {
    use enums::logical_chans::LogicalChannel;
    use tetra_core::{BitBuffer, PhysicalChannel, TdmaTime};

    pub mod enums {
        pub mod logical_chans {
            #[derive(Debug, Clone, Copy, PartialEq, Eq)]
            pub enum LogicalChannel {
                Aach,
                Bsch,
                Bnch,
                SchHd,
                SchF,
                Stch,
                TchS,
            }
        }
    }

    #[derive(Debug)]
    pub struct TmvUnitdataReq {
        pub logical_channel: LogicalChannel,
        pub mac_block: BitBuffer,
        pub scrambling_code: u32,
    }

    #[derive(Debug)]
    pub struct TmvUnitdataReqSlot {
        pub carrier_num: u16,
        pub ts: TdmaTime,
        pub blk1: Option<TmvUnitdataReq>,
        pub blk2: Option<TmvUnitdataReq>,
        pub bbk: Option<TmvUnitdataReq>,
        pub ul_phy_chan: PhysicalChannel,
    }
}

pub mod lcmc {
    pub mod enums {
        pub mod alloc_type {
            /// Two bits (EN 300 392-2, 21.5.2).
            #[derive(Debug, Clone, Copy, PartialEq, Eq)]
            pub enum ChanAllocType {
                Replace = 0,
                Additional = 1,
                QuitAndGo = 2,
                ReplaceWithCarrierSignalling = 3,
            }
            crate::two_bits!(ChanAllocType, Replace, Additional, QuitAndGo, ReplaceWithCarrierSignalling);
        }
        pub mod ul_dl_assignment {
            /// Two bits: "0 = Augmented, 1 = Dl only, 2 = Ul only, 3 = Both" (channel_allocation.rs).
            #[derive(Debug, Clone, Copy, PartialEq, Eq)]
            pub enum UlDlAssignment {
                Augmented = 0,
                Dl = 1,
                Ul = 2,
                Both = 3,
            }
            crate::two_bits!(UlDlAssignment, Augmented, Dl, Ul, Both);
        }
    }
}

/// What the published files ask of an enum of two bits.
#[macro_export]
macro_rules! two_bits {
    ($name:ident, $a:ident, $b:ident, $c:ident, $d:ident) => {
        impl TryFrom<u64> for $name {
            type Error = ();
            fn try_from(x: u64) -> Result<Self, ()> {
                [$name::$a, $name::$b, $name::$c, $name::$d].get(x as usize).copied().ok_or(())
            }
        }
        impl core::fmt::Display for $name {
            fn fmt(&self, f: &mut core::fmt::Formatter<'_>) -> core::fmt::Result {
                write!(f, "{self:?}")
            }
        }
    };
}
