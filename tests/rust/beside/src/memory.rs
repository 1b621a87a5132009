//! A station with its queue and its store as words: what the library is lent, and what stands in the Rust.
use crate::ffi::*;
use crate::words::{self, value, word, Cell, Words};
use original::Original;
use tetra_core::TdmaTime;

#[derive(Clone)]
pub struct Memory {
    pub station: [u32; STATION_WORDS],
    pub queue: Vec<u32>,
    pub store: Vec<u8>,
}

/// Where a timeslot's queue begins.
fn first_place(timeslot: u8) -> usize {
    16 * (timeslot as usize - 1)
}

/// Where the three words of an entry of the uplink table stand.
pub fn entry_at(timeslot: u8, frame: u8) -> usize {
    4 + 3 * (18 * (timeslot as usize - 1) + frame as usize - 1)
}

impl Memory {
    /// The memory of a new station, all zero behind the station.
    pub fn empty() -> Memory {
        Memory { station: [0; STATION_WORDS], queue: vec![0; QUEUE_WORDS], store: vec![0; STORE_OCTETS] }
    }

    pub fn count(&self, timeslot: u8) -> usize {
        self.station[223 + timeslot as usize] as usize
    }

    /// A record more for a timeslot.
    pub fn push(&mut self, timeslot: u8, (record, cell): &(Words, Cell)) {
        let place = first_place(timeslot) + self.count(timeslot);
        self.queue[23 * place..][..23].copy_from_slice(record);
        self.store[256 * place..][..256].copy_from_slice(cell);
        self.station[223 + timeslot as usize] += 1;
    }

    /// No record for a timeslot.
    pub fn empty_queue(&mut self, timeslot: u8) {
        let place = first_place(timeslot);
        self.queue[23 * place..][..23 * 16].fill(0);
        self.store[256 * place..][..256 * 16].fill(0);
        self.station[223 + timeslot as usize] = 0;
    }

    /// A station of the Rust in this state, which must be sound.
    pub fn to_original(&self) -> Original {
        let s = &self.station;
        let time = TdmaTime { t: s[0] as u8, f: s[1] as u8, m: s[2] as u8, h: s[3] as u16 };
        let mut rust = Original::new(time).unwrap();
        for t in 1..=4 {
            for f in 1..=18 {
                let e = &s[entry_at(t, f)..][..3];
                rust.sched.door_set_entry(t, f, (value(e[0]), value(e[1]), value(e[2]).map(|m| m as u8)));
            }
            rust.sched.door_markers()[t as usize - 1] = s[219 + t as usize] as u8;
            for place in first_place(t)..first_place(t) + self.count(t) {
                let record = self.queue[23 * place..][..23].try_into().unwrap();
                let cell = self.store[256 * place..][..256].try_into().unwrap();
                let record = words::queued(&mut rust, record, cell);
                rust.sched.door_push(t, record);
            }
        }
        rust
    }

    /// The state of the Rust.
    pub fn of(rust: &mut Original) -> Memory {
        let mut m = Memory::empty();
        let now = rust.sched.cur_dltime;
        m.station[..4].copy_from_slice(&[now.t as u32, now.f as u32, now.m as u32, now.h as u32]);
        for t in 1..=4 {
            for f in 1..=18 {
                let (first, second, marker) = rust.sched.door_entry(t, f);
                m.station[entry_at(t, f)..][..3].copy_from_slice(&[word(first), word(second), word(marker)]);
            }
            m.station[219 + t as usize] = rust.sched.door_markers()[t as usize - 1] as u32;
            for record in rust.sched.door_queue(t) {
                m.push(t, &words::of_queued(rust, record));
            }
        }
        m
    }

    // ---- the calls of include/bs_sched.h. SAFETY of each: the buffers are valid for their lengths, and none overlaps another.

    pub fn new(&mut self, time: TdmaTime) -> u8 {
        *self = Memory::empty();
        unsafe { bs_sched_new(self.station.as_mut_ptr(), STATION_WORDS, time.h, time.m, time.f, time.t) }
    }

    pub fn advance(&mut self) -> u8 {
        unsafe { bs_sched_advance(self.station.as_mut_ptr(), STATION_WORDS) }
    }

    pub fn request(&mut self, timeslot: u8, code: u8, kind: u8, number: u32) -> Result<(u8, u8, u8), u8> {
        let (s, q, d) = (&mut self.station, &mut self.queue, &self.store);
        let (station, queue) = (s.as_mut_ptr(), q.as_mut_ptr());
        let g = unsafe { bs_sched_request(station, s.len(), queue, q.len(), d.as_ptr(), d.len(), timeslot, code, kind, number) };
        if g.refusal == 0 {
            Ok((g.capacity, g.delay, g.usage_marker))
        } else {
            Err(g.refusal)
        }
    }

    pub fn ack(&mut self, timeslot: u8, kind: u8, number: u32) -> u8 {
        let (s, q, d) = (&mut self.station, &mut self.queue, &self.store);
        let (station, queue) = (s.as_mut_ptr(), q.as_mut_ptr());
        unsafe { bs_sched_enqueue_ack(station, s.len(), queue, q.len(), d.as_ptr(), d.len(), timeslot, kind, number) }
    }

    pub fn enqueue(&mut self, timeslot: u8, record: &Words, sdu: &[u8]) -> u8 {
        let (s, q, d) = (&mut self.station, &mut self.queue, &mut self.store);
        let (station, queue, store) = (s.as_mut_ptr(), q.as_mut_ptr(), d.as_mut_ptr());
        let (words, octets) = (record.as_ptr(), sdu.as_ptr());
        unsafe { bs_sched_enqueue(station, s.len(), queue, q.len(), store, d.len(), timeslot, words, 23, octets, sdu.len()) }
    }

    /// The tags if a block is built, none if not, or a refusal.
    pub fn build(&mut self, block: &mut [u8; BLOCK_OCTETS]) -> Result<Option<Vec<u16>>, u8> {
        let (s, q, d) = (&mut self.station, &mut self.queue, &mut self.store);
        let (station, queue, store) = (s.as_mut_ptr(), q.as_mut_ptr(), d.as_mut_ptr());
        let b = unsafe { bs_sched_build(station, s.len(), queue, q.len(), store, d.len(), block.as_mut_ptr(), BLOCK_OCTETS) };
        let (tags, rest) = b.tags.split_at(b.tag_count as usize);
        assert!(rest.iter().all(|t| *t == 0), "a tag behind the last");
        match b.refusal {
            0 => Ok((b.built == 1).then(|| tags.to_vec())),
            n => Err(n),
        }
    }

    /// The owner of both halves, of the first, of the second.
    pub fn owners(&self, time: TdmaTime) -> Result<[Option<u32>; 3], u8> {
        let o = unsafe { bs_sched_slot_owner(self.station.as_ptr(), STATION_WORDS, time.h, time.m, time.f, time.t) };
        if o.refusal == 0 {
            Ok([o.both, o.first, o.second].map(value))
        } else {
            Err(o.refusal)
        }
    }

    pub fn usage(&self, time: TdmaTime) -> Result<(u8, u8), u8> {
        let u = unsafe { bs_sched_usage(self.station.as_ptr(), STATION_WORDS, time.h, time.m, time.f, time.t) };
        if u.refusal == 0 {
            Ok((u.usage, u.usage_marker))
        } else {
            Err(u.refusal)
        }
    }
}
