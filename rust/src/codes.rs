//! The codes of requests and grants.

/// The reservation requirement of a request (EN 300 392-2, 21.5.4): how much capacity is asked for. Its number is the code.
///
/// ```
/// use bs_sched::Requirement;
/// assert_eq!(Requirement::Req8Slots.code(), 7);
/// assert_eq!(Requirement::Req8Slots.slots(), 8);
/// assert_eq!(Requirement::from_code(0), Some(Requirement::Req1Subslot));
/// assert_eq!(Requirement::from_code(16), None);
/// ```
#[derive(Clone, Copy, Debug, PartialEq, Eq)]
#[repr(u8)]
pub enum Requirement {
    /// One half-slot.
    Req1Subslot = 0,
    /// 1 slot.
    Req1Slot = 1,
    /// 2 slots.
    Req2Slots = 2,
    /// 3 slots.
    Req3Slots = 3,
    /// 4 slots.
    Req4Slots = 4,
    /// 5 slots.
    Req5Slots = 5,
    /// 6 slots.
    Req6Slots = 6,
    /// 8 slots.
    Req8Slots = 7,
    /// 10 slots.
    Req10Slots = 8,
    /// 13 slots.
    Req13Slots = 9,
    /// 17 slots.
    Req17Slots = 10,
    /// 24 slots.
    Req24Slots = 11,
    /// 34 slots.
    Req34Slots = 12,
    /// 51 slots.
    Req51Slots = 13,
    /// 68 slots.
    Req68Slots = 14,
    /// Over 68 slots, taken as 68.
    ReqOver68 = 15,
}

// The slots of the codes 1 to 14.
const SLOTS: [u8; 14] = [1, 2, 3, 4, 5, 6, 8, 10, 13, 17, 24, 34, 51, 68];

impl Requirement {
    /// Every requirement, in the order of the codes.
    ///
    /// ```
    /// use bs_sched::Requirement;
    /// assert!(Requirement::ALL.iter().enumerate().all(|(i, r)| r.code() as usize == i));
    /// ```
    pub const ALL: [Requirement; 16] = [
        Requirement::Req1Subslot,
        Requirement::Req1Slot,
        Requirement::Req2Slots,
        Requirement::Req3Slots,
        Requirement::Req4Slots,
        Requirement::Req5Slots,
        Requirement::Req6Slots,
        Requirement::Req8Slots,
        Requirement::Req10Slots,
        Requirement::Req13Slots,
        Requirement::Req17Slots,
        Requirement::Req24Slots,
        Requirement::Req34Slots,
        Requirement::Req51Slots,
        Requirement::Req68Slots,
        Requirement::ReqOver68,
    ];

    /// The code, 0 to 15.
    ///
    /// ```
    /// assert_eq!(bs_sched::Requirement::ReqOver68.code(), 15);
    /// ```
    pub fn code(self) -> u8 {
        self as u8
    }

    /// The requirement of a code; none above 15.
    ///
    /// ```
    /// use bs_sched::Requirement;
    /// assert_eq!(Requirement::from_code(14), Some(Requirement::Req68Slots));
    /// ```
    pub fn from_code(code: u8) -> Option<Requirement> {
        Requirement::ALL.get(code as usize).copied()
    }

    /// The slots asked for; half a slot counts as one.
    ///
    /// ```
    /// use bs_sched::Requirement;
    /// assert_eq!(Requirement::Req1Subslot.slots(), 1);
    /// assert_eq!(Requirement::ReqOver68.slots(), 68);
    /// ```
    pub fn slots(self) -> u8 {
        match self.code() {
            0 => 1,
            15 => 68,
            code => SLOTS[code as usize - 1],
        }
    }
}

/// The capacity that a grant gives (EN 300 392-2, 21.5.6).
///
/// ```
/// use bs_sched::{Capacity, Requirement, Scheduler, Address, AddressKind, Time};
/// let mut s = Scheduler::new(Time { h: 0, m: 1, f: 1, t: 1 })?;
/// let a = Address { kind: AddressKind::Ssi, number: 1 };
/// assert_eq!(s.request(1, Requirement::Req1Subslot, a)?.capacity, Capacity::FirstHalf);
/// assert_eq!(s.request(1, Requirement::Req1Subslot, a)?.capacity, Capacity::SecondHalf);
/// assert_eq!(s.request(1, Requirement::Req8Slots, a)?.capacity, Capacity::Slots(8));
/// # Ok::<(), bs_sched::Refusal>(())
/// ```
#[derive(Clone, Copy, Debug, PartialEq, Eq)]
pub enum Capacity {
    /// The first half of a slot, code 0.
    FirstHalf,
    /// The second half of a slot, code 15.
    SecondHalf,
    /// Whole slots: 1, 2, 3, 4, 5, 6, 8, 10, 13, 17, 24, 34, 51 or 68, codes 1 to 14.
    Slots(u8),
}

impl Capacity {
    /// The capacity of a code; none above 15.
    ///
    /// ```
    /// use bs_sched::Capacity;
    /// assert_eq!(Capacity::from_code(9), Some(Capacity::Slots(13)));
    /// assert_eq!(Capacity::from_code(16), None);
    /// ```
    pub fn from_code(code: u8) -> Option<Capacity> {
        match code {
            0 => Some(Capacity::FirstHalf),
            15 => Some(Capacity::SecondHalf),
            _ => SLOTS.get(code as usize - 1).map(|n| Capacity::Slots(*n)),
        }
    }

    /// The code, 0 to 15; none for a number of slots that no grant has.
    ///
    /// ```
    /// use bs_sched::Capacity;
    /// assert_eq!(Capacity::Slots(8).code(), Some(7));
    /// assert_eq!(Capacity::Slots(7).code(), None);
    /// assert_eq!(Capacity::SecondHalf.code(), Some(15));
    /// ```
    pub fn code(self) -> Option<u8> {
        match self {
            Capacity::FirstHalf => Some(0),
            Capacity::SecondHalf => Some(15),
            Capacity::Slots(n) => SLOTS.iter().position(|m| *m == n).map(|i| i as u8 + 1),
        }
    }
}
