//! The signalling scheduler of a TETRA base station. The work is done by functions that are proved (libbs_sched_c.a); this crate owns
//! the state, the queue and the SDU store and gives them a safe interface. A refusal alters nothing.
//!
//! ```
//! use bs_sched::{Address, AddressKind, Requirement, Scheduler, Time};
//! let mut scheduler = Scheduler::new(Time { h: 0, m: 1, f: 1, t: 1 })?;
//! let grant = scheduler.request(1, Requirement::Req1Slot, Address { kind: AddressKind::Ssi, number: 1 })?;
//! assert_eq!(grant.delay, 0);
//! let block = scheduler.build()?.expect("the grant is queued").block;
//! assert_eq!(block[..8], [0x20, 0x39, 0x00, 0x00, 0x01, 0x44, 0x10, 0x00]);
//! # Ok::<(), bs_sched::Refusal>(())
//! ```
#![deny(missing_docs)]

mod buffers;
mod codes;
pub mod ffi;
mod types;

pub use buffers::{AirAddress, PduHeader, PlacedHeader, ResourceHeader, fill_bits, read_block, write_header};
pub use codes::{Capacity, Requirement};
pub use types::{Address, AddressKind, Block, Built, ChanAlloc, Grant, Header, Owners, Refusal, Time, Usage};

/// A station with its queue and its SDU store.
///
/// ```
/// use bs_sched::{Scheduler, Time};
/// let s = Scheduler::new(Time { h: 0, m: 1, f: 1, t: 1 })?;
/// assert_eq!(s.clone().time(), s.time());
/// # Ok::<(), bs_sched::Refusal>(())
/// ```
#[derive(Clone)]
pub struct Scheduler {
    station: [u32; ffi::STATION_WORDS],
    queue: Box<[u32]>,
    store: Box<[u8]>,
}

impl Scheduler {
    /// A new station: an empty table and queues, and usage markers at 4.
    ///
    /// ```
    /// use bs_sched::{Refusal, Scheduler, Time};
    /// assert!(Scheduler::new(Time { h: 0, m: 1, f: 1, t: 1 }).is_ok());
    /// assert_eq!(Scheduler::new(Time { h: 0, m: 1, f: 1, t: 5 }).err(), Some(Refusal::Unsound));
    /// ```
    pub fn new(time: Time) -> Result<Scheduler, Refusal> {
        let mut s = Scheduler {
            station: [0; ffi::STATION_WORDS],
            queue: vec![0; ffi::QUEUE_WORDS].into_boxed_slice(),
            store: vec![0; ffi::STORE_OCTETS].into_boxed_slice(),
        };
        // Safety: the pointer and the length are those of one slice, lent for the call. The same holds below.
        let n = unsafe { ffi::bs_sched_new(s.station.as_mut_ptr(), s.station.len(), time.h, time.m, time.f, time.t) };
        Refusal::none(n).map(|()| s)
    }

    /// The state and the queue as words and the store as octets, to keep or to inspect.
    ///
    /// ```
    /// use bs_sched::{Scheduler, Time};
    /// let s = Scheduler::new(Time { h: 0, m: 1, f: 1, t: 1 })?;
    /// assert_eq!(s.parts().0[..4], [1, 1, 1, 0]);
    /// # Ok::<(), bs_sched::Refusal>(())
    /// ```
    pub fn parts(&self) -> (&[u32], &[u32], &[u8]) {
        (&self.station, &self.queue, &self.store)
    }

    /// A scheduler of parts kept elsewhere. Whatever they hold is taken; what is not sound is refused by each call.
    ///
    /// ```
    /// use bs_sched::{Refusal, Scheduler};
    /// let mut s = Scheduler::from_parts([0; 228], vec![0; 1472], vec![0; 16384]);
    /// assert_eq!(s.advance(), Err(Refusal::Unsound));
    /// ```
    pub fn from_parts(station: [u32; ffi::STATION_WORDS], queue: Vec<u32>, store: Vec<u8>) -> Scheduler {
        Scheduler { station, queue: queue.into_boxed_slice(), store: store.into_boxed_slice() }
    }

    /// The time of the current slot.
    ///
    /// ```
    /// use bs_sched::{Scheduler, Time};
    /// let now = Time { h: 0, m: 1, f: 1, t: 1 };
    /// assert_eq!(Scheduler::new(now)?.time(), now);
    /// # Ok::<(), bs_sched::Refusal>(())
    /// ```
    pub fn time(&self) -> Time {
        let w = &self.station;
        Time { h: w[3] as u16, m: w[2] as u8, f: w[1] as u8, t: w[0] as u8 }
    }

    /// One slot on.
    ///
    /// ```
    /// use bs_sched::{Scheduler, Time};
    /// let mut s = Scheduler::new(Time { h: 0, m: 1, f: 1, t: 1 })?;
    /// s.advance()?;
    /// assert_eq!(s.time().t, 2);
    /// # Ok::<(), bs_sched::Refusal>(())
    /// ```
    pub fn advance(&mut self) -> Result<(), Refusal> {
        Refusal::none(unsafe { ffi::bs_sched_advance(self.station.as_mut_ptr(), self.station.len()) })
    }

    /// A request for capacity on a timeslot. The grant is queued.
    ///
    /// ```
    /// use bs_sched::{Address, AddressKind, Refusal, Requirement, Scheduler, Time};
    /// let mut s = Scheduler::new(Time { h: 0, m: 1, f: 1, t: 1 })?;
    /// let a = Address { kind: AddressKind::Issi, number: 5 };
    /// assert_eq!(s.request(1, Requirement::Req2Slots, a)?.usage_marker, Some(4));
    /// assert_eq!(s.request(1, Requirement::Req17Slots, a), Err(Refusal::NoRun));
    /// # Ok::<(), bs_sched::Refusal>(())
    /// ```
    pub fn request(&mut self, timeslot: u8, requirement: Requirement, address: Address) -> Result<Grant, Refusal> {
        let r = unsafe {
            ffi::bs_sched_request(
                self.station.as_mut_ptr(),
                self.station.len(),
                self.queue.as_mut_ptr(),
                self.queue.len(),
                self.store.as_ptr(),
                self.store.len(),
                timeslot,
                requirement.code(),
                address.kind as u8,
                address.number,
            )
        };
        Refusal::none(r.refusal)?;
        let usage_marker = (r.usage_marker != 0).then_some(r.usage_marker);
        let capacity = Capacity::from_code(r.capacity).expect("a grant has a capacity code");
        Ok(Grant { capacity, delay: r.delay, usage_marker })
    }

    /// Queues an acknowledgement of a random access.
    ///
    /// ```
    /// use bs_sched::{Address, AddressKind, Refusal, Scheduler, Time};
    /// let mut s = Scheduler::new(Time { h: 0, m: 1, f: 1, t: 1 })?;
    /// let a = Address { kind: AddressKind::Ssi, number: 7 };
    /// s.enqueue_ack(1, a)?;
    /// assert_eq!(s.enqueue_ack(5, a), Err(Refusal::Timeslot));
    /// # Ok::<(), bs_sched::Refusal>(())
    /// ```
    pub fn enqueue_ack(&mut self, timeslot: u8, address: Address) -> Result<(), Refusal> {
        Refusal::none(unsafe {
            ffi::bs_sched_enqueue_ack(
                self.station.as_mut_ptr(),
                self.station.len(),
                self.queue.as_mut_ptr(),
                self.queue.len(),
                self.store.as_ptr(),
                self.store.len(),
                timeslot,
                address.kind as u8,
                address.number,
            )
        })
    }

    /// Queues a record with the first `bits` bits of `sdu`, most significant bit first.
    ///
    /// ```
    /// use bs_sched::{Address, AddressKind, Header, Refusal, Scheduler, Time};
    /// let mut s = Scheduler::new(Time { h: 0, m: 1, f: 1, t: 1 })?;
    /// let a = Address { kind: AddressKind::Ssi, number: 7 };
    /// s.enqueue(1, a, Some(99), Header::default(), 12, &[0xa5, 0x50])?;
    /// assert_eq!(s.enqueue(1, a, None, Header::default(), 17, &[0xa5, 0x50]), Err(Refusal::Sdu));
    /// # Ok::<(), bs_sched::Refusal>(())
    /// ```
    pub fn enqueue(
        &mut self,
        timeslot: u8,
        address: Address,
        tag: Option<u16>,
        header: Header,
        bits: u16,
        sdu: &[u8],
    ) -> Result<(), Refusal> {
        let record = header.record(address, tag, bits);
        Refusal::none(unsafe {
            ffi::bs_sched_enqueue(
                self.station.as_mut_ptr(),
                self.station.len(),
                self.queue.as_mut_ptr(),
                self.queue.len(),
                self.store.as_mut_ptr(),
                self.store.len(),
                timeslot,
                record.as_ptr(),
                record.len(),
                sdu.as_ptr(),
                sdu.len(),
            )
        })
    }

    /// Builds the block of the current slot. None in frame 18 and where nothing is queued.
    ///
    /// ```
    /// use bs_sched::{Scheduler, Time};
    /// let mut s = Scheduler::new(Time { h: 0, m: 1, f: 1, t: 1 })?;
    /// assert_eq!(s.build()?, None);
    /// # Ok::<(), bs_sched::Refusal>(())
    /// ```
    pub fn build(&mut self) -> Result<Option<Built>, Refusal> {
        let mut block: Block = [0; ffi::BLOCK_OCTETS];
        let r = unsafe {
            ffi::bs_sched_build(
                self.station.as_mut_ptr(),
                self.station.len(),
                self.queue.as_mut_ptr(),
                self.queue.len(),
                self.store.as_mut_ptr(),
                self.store.len(),
                block.as_mut_ptr(),
                block.len(),
            )
        };
        Refusal::none(r.refusal)?;
        if r.built == 0 {
            return Ok(None);
        }
        Ok(Some(Built { block, tags: r.tags[..(r.tag_count as usize).min(16)].to_vec() }))
    }

    /// Who holds the slot at a time.
    ///
    /// ```
    /// use bs_sched::{Address, AddressKind, Requirement, Scheduler, Time};
    /// let mut s = Scheduler::new(Time { h: 0, m: 1, f: 1, t: 1 })?;
    /// s.request(1, Requirement::Req1Slot, Address { kind: AddressKind::Ssi, number: 9 })?;
    /// assert_eq!(s.slot_owner(s.time())?.both, Some(9));
    /// # Ok::<(), bs_sched::Refusal>(())
    /// ```
    pub fn slot_owner(&self, time: Time) -> Result<Owners, Refusal> {
        let r = unsafe {
            ffi::bs_sched_slot_owner(self.station.as_ptr(), self.station.len(), time.h, time.m, time.f, time.t)
        };
        Refusal::none(r.refusal)?;
        Ok(Owners { both: r.both.checked_sub(1), first: r.first.checked_sub(1), second: r.second.checked_sub(1) })
    }

    /// How the slot at a time is used.
    ///
    /// ```
    /// use bs_sched::{Address, AddressKind, Requirement, Scheduler, Time, Usage};
    /// let mut s = Scheduler::new(Time { h: 0, m: 1, f: 1, t: 1 })?;
    /// s.request(1, Requirement::Req2Slots, Address { kind: AddressKind::Ssi, number: 9 })?;
    /// assert_eq!(s.usage(s.time())?, Usage::Traffic(4));
    /// # Ok::<(), bs_sched::Refusal>(())
    /// ```
    pub fn usage(&self, time: Time) -> Result<Usage, Refusal> {
        let r =
            unsafe { ffi::bs_sched_usage(self.station.as_ptr(), self.station.len(), time.h, time.m, time.f, time.t) };
        Refusal::none(r.refusal)?;
        Ok(match r.usage {
            0 => Usage::CommonOnly,
            1 => Usage::CommonAndAssigned,
            2 => Usage::AssignedOnly,
            _ => Usage::Traffic(r.usage_marker),
        })
    }
}
