//! The published scheduler behind document 01's calls: where the document asks a question that the Rust does not, it is asked here,
//! before the Rust is called. Everything else is the Rust's.
pub mod commands;
pub mod random;
pub mod streams;
mod watch;

use tetra_core::{BitBuffer, PhyBlockNum, SsiType, TdmaTime, TetraAddress, TxReporter, TxState};
use tetra_entities::umac::subcomp::bs_sched::BsChannelScheduler;
use tetra_pdus::umac::enums::access_assign_ul_usage::AccessAssignUlUsage;
use tetra_pdus::umac::enums::reservation_requirement::ReservationRequirement;
use tetra_pdus::umac::pdus::mac_resource::MacResource;

pub const FIRST_TIME: TdmaTime = TdmaTime { h: 0, m: 1, f: 1, t: 1 };

/// A refusal's number.
pub type Refusal = u8;

/// A block and the tags of the records that it finishes.
pub type Built = ([u8; 34], Vec<u16>);

/// A scheduler, and the report of each record that is queued with a tag and not finished.
pub struct Original {
    pub sched: BsChannelScheduler,
    pub reports: Vec<(u16, TxReporter)>,
}

/// "address kind (0 SSI, 1 GSSI, 2 ISSI)"
pub fn address(kind: u8, number: u32) -> TetraAddress {
    TetraAddress { ssi: number, ssi_type: [SsiType::Ssi, SsiType::Gssi, SsiType::Issi][kind as usize] }
}

/// An SDU: the first bits of some octets.
pub fn sdu(octets: &[u8], bits: usize) -> BitBuffer {
    let mut to = BitBuffer::new(bits);
    to.copy_bits(&mut BitBuffer::from_bytes(octets), bits);
    to.seek(0);
    to
}

impl Original {
    /// A new station, or 1.
    pub fn new(time: TdmaTime) -> Result<Original, Refusal> {
        if !time.is_valid() {
            return Err(1);
        }
        Ok(Original { sched: BsChannelScheduler::door_new(time), reports: Vec::new() })
    }

    pub fn advance(&mut self) {
        self.sched.door_advance();
    }

    /// Questions 3, 5 and 8.
    fn ask(&self, timeslot: u8, kind: u8, number: u32, between: impl Fn() -> Option<Refusal>) -> Option<Refusal> {
        if !(1..=4).contains(&timeslot) {
            return Some(3);
        }
        if kind > 2 || number >= 1 << 24 {
            return Some(5);
        }
        between().or((self.sched.door_queued(timeslot) >= 16).then_some(8))
    }

    /// Capacity, delay and marker or 0. The Rust says none both without a run and with one too late; its search tells which.
    pub fn request(&mut self, timeslot: u8, code: u8, kind: u8, number: u32) -> Result<(u8, u8, u8), Refusal> {
        let requirement = ReservationRequirement::try_from(code as u64);
        if (1..=4).contains(&timeslot) && requirement.is_err() {
            return Err(4);
        }
        if let Some(n) = self.ask(timeslot, kind, number, || None) {
            return Err(n);
        }
        let (requirement, address) = (requirement.unwrap(), address(kind, number));
        if let Some((grant, marker)) = self.sched.ul_process_cap_req(timeslot, address, &requirement) {
            self.sched.dl_enqueue_grant(timeslot, address, grant, marker);
            let (capacity, delay) = (grant.capacity_allocation.into_raw(), grant.granting_delay.into_raw());
            return Ok((capacity as u8, delay as u8, marker.unwrap_or(0)));
        }
        let half = requirement == ReservationRequirement::Req1Subslot;
        let slots = if half { 1 } else { requirement.to_req_slotcount() };
        match self.sched.ul_find_grant_opportunity(timeslot, slots, half) {
            None => Err(9),
            Some((passed, _)) => {
                assert!(passed > 13, "none, with {passed} slots before the run");
                Err(10)
            }
        }
    }

    pub fn ack(&mut self, timeslot: u8, kind: u8, number: u32) -> Refusal {
        if let Some(n) = self.ask(timeslot, kind, number, || None) {
            return n;
        }
        self.sched.dl_enqueue_random_access_ack(timeslot, address(kind, number));
        0
    }

    /// Queues a record; `legal` answers question 6, and `header` makes the header where all questions are answered yes.
    #[allow(clippy::too_many_arguments)]
    pub fn queue(
        &mut self,
        timeslot: u8,
        kind: u8,
        number: u32,
        legal: bool,
        header: impl FnOnce() -> MacResource,
        tag: Option<u16>,
        octets: &[u8],
        bits: usize,
    ) -> Refusal {
        let between = || if !legal { Some(6) } else { (bits > 2048 || bits > 8 * octets.len()).then_some(7) };
        if let Some(n) = self.ask(timeslot, kind, number, between) {
            return n;
        }
        let report = tag.map(|tag| self.report(tag));
        let pdu = MacResource { addr: Some(address(kind, number)), ..header() };
        let sdu = sdu(octets, bits);
        self.sched.door_no_deferral();
        // a group's record goes to timeslot 1 by the published call: then the function below it is called
        if self.sched.door_routes(address(kind, number), timeslot) {
            self.sched.dl_enqueue_tma_for_link(timeslot as u32, pdu, sdu, report);
        } else {
            self.sched.door_enqueue_on(timeslot, pdu, sdu, report);
        }
        0
    }

    /// The report of a record with a tag.
    pub fn report(&mut self, tag: u16) -> TxReporter {
        let report = TxReporter::new_unacked();
        self.reports.push((tag, report.clone()));
        report
    }

    /// "in frame 18 nothing is merged or altered": the Rust merges there.
    pub fn build(&mut self) -> Option<Built> {
        if self.sched.cur_dltime.f == 18 {
            return None;
        }
        let (block, tags) = watch::finished(&mut self.reports, || self.sched.door_build());
        assert!(self.reports.iter().all(|(_, r)| r.get_state() == TxState::Pending), "a record was discarded");
        let Some(block) = block else {
            assert!(tags.is_empty());
            return None;
        };
        assert!(block.get_raw_start() == 0 && block.get_len() == 268);
        Some((block.into_bytes().try_into().unwrap(), tags))
    }

    /// The owner of both halves, of the first, of the second; or 1.
    pub fn owners(&self, time: TdmaTime) -> Result<[Option<u32>; 3], Refusal> {
        if !time.is_valid() {
            return Err(1);
        }
        Ok([PhyBlockNum::Both, PhyBlockNum::Block1, PhyBlockNum::Block2].map(|half| self.sched.ul_get_slot_owner(time, half)))
    }

    /// Usage, and the marker or 0; or 1.
    pub fn usage(&self, time: TdmaTime) -> Result<(u8, u8), Refusal> {
        if !time.is_valid() {
            return Err(1);
        }
        Ok(match self.sched.door_usage(time) {
            AccessAssignUlUsage::CommonOnly => (0, 0),
            AccessAssignUlUsage::CommonAndAssigned => (1, 0),
            AccessAssignUlUsage::AssignedOnly => (2, 0),
            AccessAssignUlUsage::Traffic(marker) => (3, marker),
            AccessAssignUlUsage::Unallocated => unreachable!(),
        })
    }
}
