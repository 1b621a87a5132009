//! The block reader, the header writer and fill removal, on buffers of the caller's own.
use crate::ffi;
use crate::types::word;
use crate::{ChanAlloc, Refusal};

/// An address as it stands on the air: its type and its parts.
///
/// ```
/// use bs_sched::AirAddress;
/// assert_eq!(AirAddress::SsiUsageMarker(1, 4).addr_type(), 6);
/// ```
#[derive(Clone, Copy, Debug, PartialEq, Eq)]
pub enum AirAddress {
    /// Type 0: the null PDU.
    Null,
    /// Type 1: SSI.
    Ssi(u32),
    /// Type 2: event label.
    EventLabel(u16),
    /// Type 3: USSI.
    Ussi(u32),
    /// Type 4: SMI.
    Smi(u32),
    /// Type 5: SSI and event label.
    SsiEventLabel(u32, u16),
    /// Type 6: SSI and usage marker.
    SsiUsageMarker(u32, u8),
    /// Type 7: SMI and event label.
    SmiEventLabel(u32, u16),
}

impl AirAddress {
    /// The address type, 0 to 7.
    ///
    /// ```
    /// assert_eq!(bs_sched::AirAddress::Null.addr_type(), 0);
    /// ```
    pub fn addr_type(self) -> u8 {
        self.words()[0] as u8
    }

    // Words 7 to 10 of a header.
    fn words(self) -> [u32; 4] {
        match self {
            AirAddress::Null => [0, 0, 0, 0],
            AirAddress::Ssi(n) => [1, n, 0, 0],
            AirAddress::EventLabel(e) => [2, 0, e.into(), 0],
            AirAddress::Ussi(n) => [3, n, 0, 0],
            AirAddress::Smi(n) => [4, n, 0, 0],
            AirAddress::SsiEventLabel(n, e) => [5, n, e.into(), 0],
            AirAddress::SsiUsageMarker(n, m) => [6, n, 0, m.into()],
            AirAddress::SmiEventLabel(n, e) => [7, n, e.into(), 0],
        }
    }

    fn from_words(w: &[u32]) -> AirAddress {
        let (n, e, m) = (w[1], w[2] as u16, w[3] as u8);
        match w[0] {
            1 => AirAddress::Ssi(n),
            2 => AirAddress::EventLabel(e),
            3 => AirAddress::Ussi(n),
            4 => AirAddress::Smi(n),
            5 => AirAddress::SsiEventLabel(n, e),
            6 => AirAddress::SsiUsageMarker(n, m),
            7 => AirAddress::SmiEventLabel(n, e),
            _ => AirAddress::Null,
        }
    }
}

/// A MAC-RESOURCE header (EN 300 392-2, 21.4.3.1).
///
/// ```
/// use bs_sched::{AirAddress, ResourceHeader};
/// let null = ResourceHeader { length_ind: 2, ..ResourceHeader::new(AirAddress::Null) };
/// let mut octets = [0; 2];
/// assert_eq!(bs_sched::write_header(&mut octets, 0, &null), Ok(16));
/// assert_eq!(octets, [0x00, 0x10]);
/// ```
#[derive(Clone, Copy, Debug, PartialEq, Eq)]
pub struct ResourceHeader {
    /// Fill bits stand at the end of the PDU.
    pub fill_bits: bool,
    /// Position of grant, 0 or 1.
    pub pos_of_grant: u8,
    /// Encryption mode, 0 with an address.
    pub encryption_mode: u8,
    /// Random access flag.
    pub random_access_flag: bool,
    /// Length code: whole octets, or 63 for the start of a fragment.
    pub length_ind: u8,
    /// The address.
    pub address: AirAddress,
    /// Power control element, below 16.
    pub power_control_element: Option<u8>,
    /// The grant octet.
    pub slot_granting_element: Option<u8>,
    /// Channel allocation.
    pub chan_alloc_element: Option<ChanAlloc>,
}

impl ResourceHeader {
    /// A header of this address, all else 0 or absent.
    ///
    /// ```
    /// use bs_sched::{AirAddress, ResourceHeader};
    /// assert_eq!(ResourceHeader::new(AirAddress::Ssi(1)).slot_granting_element, None);
    /// ```
    pub fn new(address: AirAddress) -> ResourceHeader {
        ResourceHeader {
            fill_bits: false,
            pos_of_grant: 0,
            encryption_mode: 0,
            random_access_flag: false,
            length_ind: 0,
            address,
            power_control_element: None,
            slot_granting_element: None,
            chan_alloc_element: None,
        }
    }

    // The words of the header, as `include/bs_sched.h` lays them out.
    fn words(&self) -> [u32; ffi::HEADER_WORDS] {
        let mut w = [0; ffi::HEADER_WORDS];
        w[2] = self.fill_bits.into();
        w[3] = self.pos_of_grant.into();
        w[4] = self.encryption_mode.into();
        w[5] = self.random_access_flag.into();
        w[6] = self.length_ind.into();
        w[7..11].copy_from_slice(&self.address.words());
        w[11] = word(self.power_control_element);
        w[12] = word(self.slot_granting_element);
        w[13..23].copy_from_slice(&ChanAlloc::words(self.chan_alloc_element));
        w
    }
}

/// The header of a PDU in a block.
///
/// ```
/// use bs_sched::PduHeader;
/// let mut block = [0; 34];
/// block[0] = 0x50; // a MAC-FRAG with fill
/// assert_eq!(bs_sched::read_block(&block)?[0].header, PduHeader::Frag { fill_bits: true });
/// # Ok::<(), bs_sched::Refusal>(())
/// ```
#[derive(Clone, Copy, Debug, PartialEq, Eq)]
pub enum PduHeader {
    /// MAC-RESOURCE, the null PDU too.
    Resource(ResourceHeader),
    /// MAC-FRAG.
    Frag {
        /// Fill bits stand at the end of the PDU.
        fill_bits: bool,
    },
    /// MAC-END, without slot grant and channel allocation.
    End {
        /// Fill bits stand at the end of the PDU.
        fill_bits: bool,
        /// Position of grant, 0 or 1.
        pos_of_grant: u8,
        /// Length code: whole octets.
        length_ind: u8,
    },
}

/// A header and the bit position where it stands.
///
/// ```
/// let mut block = [0; 34];
/// block[1] = 0x10; // a null PDU
/// assert_eq!(bs_sched::read_block(&block)?[0].at, 0);
/// # Ok::<(), bs_sched::Refusal>(())
/// ```
#[derive(Clone, Copy, Debug, PartialEq, Eq)]
pub struct PlacedHeader {
    /// The bit position, from 0.
    pub at: u32,
    /// The header.
    pub header: PduHeader,
}

impl PlacedHeader {
    fn from_words(w: &[u32]) -> PlacedHeader {
        let fill_bits = w[2] != 0;
        let header = match w[1] {
            0 => PduHeader::Resource(ResourceHeader {
                fill_bits,
                pos_of_grant: w[3] as u8,
                encryption_mode: w[4] as u8,
                random_access_flag: w[5] != 0,
                length_ind: w[6] as u8,
                address: AirAddress::from_words(&w[7..11]),
                power_control_element: w[11].checked_sub(1).map(|v| v as u8),
                slot_granting_element: w[12].checked_sub(1).map(|v| v as u8),
                chan_alloc_element: ChanAlloc::from_words(&w[13..23]),
            }),
            1 => PduHeader::Frag { fill_bits },
            _ => PduHeader::End { fill_bits, pos_of_grant: w[3] as u8, length_ind: w[6] as u8 },
        };
        PlacedHeader { at: w[0], header }
    }
}

/// Lists the headers of a block with their bit positions.
///
/// ```
/// use bs_sched::{Address, AddressKind, AirAddress, PduHeader, Refusal, Requirement, Scheduler, Time};
/// let mut s = Scheduler::new(Time { h: 0, m: 1, f: 1, t: 1 })?;
/// s.request(1, Requirement::Req1Slot, Address { kind: AddressKind::Ssi, number: 1 })?;
/// let block = s.build()?.expect("a grant is queued").block;
/// let headers = bs_sched::read_block(&block)?;
/// let PduHeader::Resource(first) = headers[0].header else { panic!() };
/// assert_eq!((first.address, first.slot_granting_element), (AirAddress::Ssi(1), Some(0x10)));
/// assert_eq!(bs_sched::read_block(&block[..33]), Err(Refusal::Lengths));
/// assert_eq!(bs_sched::read_block(&[0xff; 34]), Err(Refusal::Malformed));
/// # Ok::<(), Refusal>(())
/// ```
pub fn read_block(block: &[u8]) -> Result<Vec<PlacedHeader>, Refusal> {
    let mut words = [0; ffi::HEADERS_WORDS];
    // Safety: each pointer with its length is that of one slice, lent for the call. The same holds below.
    let r = unsafe { ffi::bs_sched_read_block(block.as_ptr(), block.len(), words.as_mut_ptr(), words.len()) };
    Refusal::none(r.refusal)?;
    Ok(words.chunks(ffi::HEADER_WORDS).take(r.count.into()).map(PlacedHeader::from_words).collect())
}

/// Writes one MAC-RESOURCE header from bit `at` of `buf` on and answers the position behind it.
///
/// ```
/// use bs_sched::{AirAddress, Refusal, ResourceHeader};
/// let h = ResourceHeader { length_ind: 6, ..ResourceHeader::new(AirAddress::Ssi(1)) };
/// let mut buf = [0; 6];
/// assert_eq!(bs_sched::write_header(&mut buf, 0, &h), Ok(43));
/// assert_eq!(bs_sched::write_header(&mut buf, 6, &h), Err(Refusal::NoRoom));
/// ```
pub fn write_header(buf: &mut [u8], at: u64, header: &ResourceHeader) -> Result<u64, Refusal> {
    let w = header.words();
    let r = unsafe { ffi::bs_sched_write_header(buf.as_mut_ptr(), buf.len(), at, w.as_ptr(), w.len()) };
    Refusal::none(r.refusal)?;
    Ok(r.end)
}

/// The number of fill bits at the end of the bits from `start` up to `end`: those from the last set bit on, 0 if none is set.
///
/// ```
/// use bs_sched::Refusal;
/// assert_eq!(bs_sched::fill_bits(&[0b1010_1000], 0, 8), Ok(4));
/// assert_eq!(bs_sched::fill_bits(&[0], 0, 8), Ok(0));
/// assert_eq!(bs_sched::fill_bits(&[0], 0, 9), Err(Refusal::NoRoom));
/// ```
pub fn fill_bits(buf: &[u8], start: u64, end: u64) -> Result<u64, Refusal> {
    let r = unsafe { ffi::bs_sched_fill_bits(buf.as_ptr(), buf.len(), start, end) };
    Refusal::none(r.refusal)?;
    Ok(r.bits)
}
