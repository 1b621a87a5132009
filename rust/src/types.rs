//! Values of the calls.
use crate::Capacity;
use crate::ffi;

/// A TDMA time. Which are valid, the calls judge.
///
/// ```
/// use bs_sched::{Refusal, Scheduler, Time};
/// assert!(Scheduler::new(Time { h: 65535, m: 60, f: 18, t: 4 }).is_ok());
/// assert_eq!(Scheduler::new(Time { h: 0, m: 1, f: 19, t: 1 }).err(), Some(Refusal::Unsound));
/// ```
#[derive(Clone, Copy, Debug, PartialEq, Eq)]
pub struct Time {
    /// Hyperframe, 0 to 65535.
    pub h: u16,
    /// Multiframe, 1 to 60.
    pub m: u8,
    /// Frame, 1 to 18.
    pub f: u8,
    /// Timeslot, 1 to 4.
    pub t: u8,
}

/// The kind of an address. On the air all three are an SSI.
///
/// ```
/// assert_eq!(bs_sched::AddressKind::Issi as u8, 2);
/// ```
#[derive(Clone, Copy, Debug, PartialEq, Eq)]
pub enum AddressKind {
    /// Short subscriber identity.
    Ssi = 0,
    /// Group short subscriber identity.
    Gssi = 1,
    /// Individual short subscriber identity.
    Issi = 2,
}

/// The address of a request, an acknowledgement or a record.
///
/// ```
/// use bs_sched::{Address, AddressKind, Refusal, Scheduler, Time};
/// let mut s = Scheduler::new(Time { h: 0, m: 1, f: 1, t: 1 })?;
/// assert_eq!(s.enqueue_ack(1, Address { kind: AddressKind::Ssi, number: 1 << 24 }), Err(Refusal::Address));
/// # Ok::<(), Refusal>(())
/// ```
#[derive(Clone, Copy, Debug, PartialEq, Eq)]
pub struct Address {
    /// Its kind.
    pub kind: AddressKind,
    /// Its number, below 2^24.
    pub number: u32,
}

/// A signalling block: 268 bits in 34 octets, the last four bits zero.
///
/// ```
/// assert_eq!(std::mem::size_of::<bs_sched::Block>(), 34);
/// ```
pub type Block = [u8; ffi::BLOCK_OCTETS];

/// What a request is granted.
///
/// ```
/// use bs_sched::{Address, AddressKind, Capacity, Grant, Requirement, Scheduler, Time};
/// let mut s = Scheduler::new(Time { h: 0, m: 1, f: 1, t: 1 })?;
/// let g = s.request(1, Requirement::Req17Slots, Address { kind: AddressKind::Ssi, number: 1 })?;
/// assert_eq!(g, Grant { capacity: Capacity::Slots(17), delay: 0, usage_marker: Some(4) });
/// # Ok::<(), bs_sched::Refusal>(())
/// ```
#[derive(Clone, Copy, Debug, PartialEq, Eq)]
pub struct Grant {
    /// How much.
    pub capacity: Capacity,
    /// The usable slots passed over, 0 to 13.
    pub delay: u8,
    /// The usage marker of two or more slots, 4 to 62.
    pub usage_marker: Option<u8>,
}

/// A block, and the tags of the records that it finished.
///
/// ```
/// use bs_sched::{Address, AddressKind, Header, Scheduler, Time};
/// let mut s = Scheduler::new(Time { h: 0, m: 1, f: 1, t: 1 })?;
/// s.enqueue(1, Address { kind: AddressKind::Ssi, number: 7 }, Some(99), Header::default(), 8, &[0xa5])?;
/// let built = s.build()?.expect("a record is queued");
/// assert_eq!(built.tags, [99]);
/// # Ok::<(), bs_sched::Refusal>(())
/// ```
#[derive(Clone, Debug, PartialEq, Eq)]
pub struct Built {
    /// The block.
    pub block: Block,
    /// The tags, in order.
    pub tags: Vec<u16>,
}

/// The owners of a slot.
///
/// ```
/// use bs_sched::{Owners, Scheduler, Time};
/// let now = Time { h: 0, m: 1, f: 1, t: 1 };
/// assert_eq!(Scheduler::new(now)?.slot_owner(now)?, Owners { both: None, first: None, second: None });
/// # Ok::<(), bs_sched::Refusal>(())
/// ```
#[derive(Clone, Copy, Debug, PartialEq, Eq)]
pub struct Owners {
    /// The owner of the whole slot, none if its halves have different ones.
    pub both: Option<u32>,
    /// The owner of the first half.
    pub first: Option<u32>,
    /// The owner of the second half.
    pub second: Option<u32>,
}

/// How a slot is used.
///
/// ```
/// use bs_sched::{Scheduler, Time, Usage};
/// let now = Time { h: 0, m: 1, f: 1, t: 1 };
/// assert_eq!(Scheduler::new(now)?.usage(now)?, Usage::CommonOnly);
/// # Ok::<(), bs_sched::Refusal>(())
/// ```
#[derive(Clone, Copy, Debug, PartialEq, Eq)]
pub enum Usage {
    /// No half taken.
    CommonOnly,
    /// The first half taken.
    CommonAndAssigned,
    /// Both halves taken.
    AssignedOnly,
    /// Any half taken with a usage marker.
    Traffic(u8),
}

/// The parts of a MAC-RESOURCE header that a queued record may have beside its address.
///
/// ```
/// use bs_sched::Header;
/// let h = Header { random_access_flag: true, power_control_element: Some(3), ..Header::default() };
/// assert_eq!(h.usage_marker, None);
/// ```
#[derive(Clone, Copy, Debug, Default, PartialEq, Eq)]
pub struct Header {
    /// Position of grant, 0 or 1.
    pub pos_of_grant: u8,
    /// Random access flag.
    pub random_access_flag: bool,
    /// Usage marker, below 64.
    pub usage_marker: Option<u8>,
    /// Power control element, below 16.
    pub power_control_element: Option<u8>,
    /// Channel allocation.
    pub chan_alloc_element: Option<ChanAlloc>,
}

/// A channel allocation element (EN 300 392-2, 21.5.2), without extended carrier numbering.
///
/// ```
/// use bs_sched::{ChanAlloc, Header};
/// let c = ChanAlloc {
///     alloc_type: 0,
///     ts_assigned: 0b0100,
///     ul_dl_assigned: 3,
///     clch_permission: false,
///     cell_change_flag: false,
///     carrier_num: 1000,
///     mon_pattern: 0,
///     frame18_mon_pattern: Some(1),
/// };
/// let h = Header { chan_alloc_element: Some(c), ..Header::default() };
/// assert_ne!(h, Header::default());
/// ```
#[derive(Clone, Copy, Debug, PartialEq, Eq)]
pub struct ChanAlloc {
    /// Allocation type, below 4.
    pub alloc_type: u8,
    /// Timeslots assigned, one bit each.
    pub ts_assigned: u8,
    /// Direction, 1 to 3.
    pub ul_dl_assigned: u8,
    /// CLCH permission.
    pub clch_permission: bool,
    /// Cell change.
    pub cell_change_flag: bool,
    /// Carrier number, below 4096.
    pub carrier_num: u16,
    /// Monitoring pattern, below 4.
    pub mon_pattern: u8,
    /// Frame-18 monitoring pattern, below 4, present exactly if the monitoring pattern is 0.
    pub frame18_mon_pattern: Option<u8>,
}

// A value that may be absent: 0, or the value and 1.
pub(crate) fn word<T: Into<u32>>(v: Option<T>) -> u32 {
    v.map_or(0, |x| x.into() + 1)
}

impl ChanAlloc {
    // The ten words of a channel allocation, all 0 if there is none.
    pub(crate) fn words(alloc: Option<ChanAlloc>) -> [u32; 10] {
        let Some(c) = alloc else { return [0; 10] };
        [
            1,
            c.alloc_type.into(),
            c.ts_assigned.into(),
            c.ul_dl_assigned.into(),
            c.clch_permission.into(),
            c.cell_change_flag.into(),
            c.carrier_num.into(),
            0,
            c.mon_pattern.into(),
            word(c.frame18_mon_pattern),
        ]
    }

    pub(crate) fn from_words(w: &[u32]) -> Option<ChanAlloc> {
        (w[0] != 0).then(|| ChanAlloc {
            alloc_type: w[1] as u8,
            ts_assigned: w[2] as u8,
            ul_dl_assigned: w[3] as u8,
            clch_permission: w[4] != 0,
            cell_change_flag: w[5] != 0,
            carrier_num: w[6] as u16,
            mon_pattern: w[8] as u8,
            frame18_mon_pattern: w[9].checked_sub(1).map(|v| v as u8),
        })
    }
}

impl Header {
    /// The words of a record that is offered to the queue, as `include/bs_sched.h` lays them out.
    ///
    /// ```
    /// use bs_sched::{Address, AddressKind, Header};
    /// let w = Header::default().record(Address { kind: AddressKind::Gssi, number: 5 }, Some(9), 8);
    /// assert_eq!((w[1], w[2], w[3], w[21]), (1, 5, 10, 8));
    /// ```
    pub fn record(self, address: Address, tag: Option<u16>, bits: u16) -> [u32; ffi::RECORD_WORDS] {
        let mut w = [0; ffi::RECORD_WORDS];
        w[0] = 2;
        w[1] = address.kind as u32;
        w[2] = address.number;
        w[3] = word(tag);
        w[4] = self.pos_of_grant.into();
        w[6] = self.random_access_flag.into();
        w[8] = word(self.usage_marker);
        w[9] = word(self.power_control_element);
        w[11..21].copy_from_slice(&ChanAlloc::words(self.chan_alloc_element));
        w[21] = bits.into();
        w
    }
}

/// The question of document 01 that was answered no.
///
/// ```
/// use bs_sched::Refusal;
/// assert_eq!(Refusal::NoRun.number(), 9);
/// assert_eq!(Refusal::NoRun.to_string(), "refused: NoRun (9)");
/// ```
#[derive(Clone, Copy, Debug, PartialEq, Eq)]
#[repr(u8)]
pub enum Refusal {
    /// The state, the queue or the store is not sound, or the time is not valid.
    Unsound = 1,
    /// A lent length is another.
    Lengths = 2,
    /// The timeslot is not 1 to 4.
    Timeslot = 3,
    /// The requirement code is above 15.
    Requirement = 4,
    /// The kind of address is above 2, or the number is 2^24 or above.
    Address = 5,
    /// The header is not legal.
    Header = 6,
    /// The SDU is over 2,048 bits, or not present in the lent octets.
    Sdu = 7,
    /// Sixteen are queued on the timeslot.
    QueueFull = 8,
    /// There is no run of free slots.
    NoRun = 9,
    /// More than 13 usable slots stand before the run.
    TooLate = 10,
    /// The buffer has too few bits.
    NoRoom = 11,
    /// The block is malformed.
    Malformed = 12,
}

impl Refusal {
    /// Document 01's number.
    ///
    /// ```
    /// assert_eq!(bs_sched::Refusal::Malformed.number(), 12);
    /// ```
    pub fn number(self) -> u8 {
        self as u8
    }

    pub(crate) fn none(number: u8) -> Result<(), Refusal> {
        Err(match number {
            0 => return Ok(()),
            2 => Refusal::Lengths,
            3 => Refusal::Timeslot,
            4 => Refusal::Requirement,
            5 => Refusal::Address,
            6 => Refusal::Header,
            7 => Refusal::Sdu,
            8 => Refusal::QueueFull,
            9 => Refusal::NoRun,
            10 => Refusal::TooLate,
            11 => Refusal::NoRoom,
            12 => Refusal::Malformed,
            _ => Refusal::Unsound,
        })
    }
}

impl std::fmt::Display for Refusal {
    fn fmt(&self, f: &mut std::fmt::Formatter<'_>) -> std::fmt::Result {
        write!(f, "refused: {self:?} ({})", self.number())
    }
}

impl std::error::Error for Refusal {}
