//! What the published files name and use no number of.
use core::fmt;

pub mod pdu_parse_error {
    #[derive(Debug, Clone, PartialEq, Eq)]
    pub enum PduParseErr {
        BufferEnded { field: Option<&'static str> },
        InvalidValue { field: &'static str, value: u64 },
    }
}

#[derive(Debug, Clone, Copy, PartialEq, Eq)]
pub enum SsiType {
    Ssi,
    Gssi,
    Issi,
    Ussi,
    Smi,
    Esi,
}

#[derive(Debug, Clone, Copy, PartialEq, Eq)]
pub struct TetraAddress {
    pub ssi: u32,
    pub ssi_type: SsiType,
}

impl fmt::Display for TetraAddress {
    fn fmt(&self, f: &mut fmt::Formatter<'_>) -> fmt::Result {
        write!(f, "{:?} {}", self.ssi_type, self.ssi)
    }
}

#[derive(Debug, Clone, Copy, PartialEq, Eq)]
pub enum Direction {
    None,
    Dl,
    Ul,
    Both,
}

#[derive(Debug, Clone, Copy, PartialEq, Eq)]
pub enum PhyBlockNum {
    Undefined,
    Block1,
    Block2,
    Both,
}

#[derive(Debug, Clone, Copy, PartialEq, Eq)]
pub enum PhysicalChannel {
    Tp,
    Cp,
    Unallocated,
}

pub type LinkId = u32;

/// An extended carrier, which the published files leave out.
pub type Todo = i32;
