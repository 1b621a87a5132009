// Inside the published bs_sched.rs: its private functions and fields. Nothing of what the scheduler does is decided here.
use super::*;

/// A record of the queue. With `started`, one that a build has met: waiting, or started.
pub enum Queued {
    Grant(TetraAddress, BasicSlotgrant, Option<u8>),
    Ack(TetraAddress),
    Record { header: MacResource, sdu: BitBuffer, started: Option<bool>, report: Option<TxReporter> },
}

/// An entry of the uplink table: the owners of its halves, and its marker.
pub type Entry = (Option<u32>, Option<u32>, Option<u8>);

impl BsChannelScheduler {
    pub fn door_new(time: TdmaTime) -> Self {
        let precomps = PrecomputedUmacPdus {
            mac_sysinfo1: MacSysinfo::default(),
            mac_sysinfo2: MacSysinfo::default(),
            mle_sysinfo: DMleSysinfo::default(),
            mac_sync: MacSync::default(),
            mle_sync: DMleSync::default(),
        };
        let mut s = BsChannelScheduler::new(0, precomps);
        s.set_dl_time(time);
        s
    }

    /// "advance steps one slot, then does clear_ul_schedule_for_tx_time for the new time" (document 01)
    pub fn door_advance(&mut self) {
        let next = self.cur_dltime.add_timeslots(1);
        self.tick_start(next);
        self.clear_ul_schedule_for_tx_time(next);
    }

    /// No record with a channel allocation was queued in this frame: the next one is not put off to the next slot.
    pub fn door_no_deferral(&mut self) {
        self.mcch_chan_alloc_sent_this_frame = false;
    }

    /// Queues a record for the timeslot that is named.
    pub fn door_enqueue_on(&mut self, timeslot: u8, pdu: MacResource, sdu: BitBuffer, report: Option<TxReporter>) {
        self.dl_enqueue_tma_on_timeslots([timeslot, 0, 0, 0], pdu, sdu, report);
    }

    /// Whether the published call sends a record for this address to the timeslot, given as its link.
    pub fn door_routes(&self, address: TetraAddress, timeslot: u8) -> bool {
        self.identify_timeslots_for_ssi(Some(address), timeslot as LinkId) == [timeslot, 0, 0, 0]
    }

    /// Merges, builds and adds the null PDU, for the current timeslot.
    pub fn door_build(&mut self) -> Option<BitBuffer> {
        let now = self.cur_dltime;
        self.dl_integrate_sched_elems_for_timeslot(now);
        let block = self.dl_build_block_from_signalling_schedule(now)?;
        let request = TmvUnitdataReq { logical_channel: LogicalChannel::SchF, mac_block: block, scrambling_code: self.scrambling_code };
        self.try_add_null_pdus(Some(request)).map(|r| r.mac_block)
    }

    pub fn door_usage(&self, time: TdmaTime) -> AccessAssignUlUsage {
        self.ul_get_usage(time)
    }

    pub fn door_markers(&mut self) -> &mut [u8; 4] {
        &mut self.next_usage_marker
    }

    pub fn door_entry(&self, timeslot: u8, frame: u8) -> Entry {
        let e = &self.ulsched[timeslot as usize - 1][frame as usize - 1];
        (e.ul1, e.ul2, e.usage_marker)
    }

    pub fn door_set_entry(&mut self, timeslot: u8, frame: u8, (ul1, ul2, usage_marker): Entry) {
        self.ulsched[timeslot as usize - 1][frame as usize - 1] = TimeslotSchedule { ul1, ul2, usage_marker };
    }

    /// How many records are queued for a timeslot. Between builds none waits for the next slot.
    pub fn door_queued(&self, timeslot: u8) -> usize {
        assert!(self.dltx_next_slot_queue.is_empty());
        self.dltx_queues[timeslot as usize - 1].len()
    }

    pub fn door_push(&mut self, timeslot: u8, record: Queued) {
        self.dltx_queues[timeslot as usize - 1].push(match record {
            Queued::Grant(a, g, m) => DlSchedElem::Grant(a, g, m),
            Queued::Ack(a) => DlSchedElem::RandomAccessAck(a),
            Queued::Record { header, sdu, started: None, report } => DlSchedElem::Resource(header, sdu, report),
            Queued::Record { header, sdu, started: Some(s), report } => DlSchedElem::FragBuf(BsFragger::door_new(header, sdu, s, report)),
        });
    }

    pub fn door_queue(&self, timeslot: u8) -> Vec<Queued> {
        let record = |e: &DlSchedElem| match e {
            DlSchedElem::Grant(a, g, m) => Queued::Grant(*a, *g, *m),
            DlSchedElem::RandomAccessAck(a) => Queued::Ack(*a),
            DlSchedElem::Resource(header, sdu, report) => {
                Queued::Record { header: header.clone(), sdu: sdu.clone(), started: None, report: report.clone() }
            }
            DlSchedElem::FragBuf(f) => {
                let (header, sdu, started, report) = f.door_state();
                Queued::Record { header, sdu, started: Some(started), report }
            }
            _ => unreachable!("neither broadcast nor stealing is queued"),
        };
        self.dltx_queues[timeslot as usize - 1].iter().map(record).collect()
    }
}
