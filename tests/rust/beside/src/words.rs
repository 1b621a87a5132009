//! A record of the queue as 23 words, and as the Rust has it.
use original::{address, sdu, Original};
use tetra_core::{BitBuffer, SsiType, TetraAddress};
use tetra_entities::umac::subcomp::bs_sched::door::Queued;
use tetra_pdus::umac::fields::basic_slotgrant::BasicSlotgrant;
use tetra_pdus::umac::fields::channel_allocation::ChanAllocElement;
use tetra_pdus::umac::pdus::mac_resource::MacResource;

pub type Words = [u32; 23];
pub type Cell = [u8; 256];

pub const GRANT: u32 = 0;
pub const ACK: u32 = 1;
pub const RECORD: u32 = 2;
pub const WAITING: u32 = 3;
pub const STARTED: u32 = 4;

/// A value that may be absent, as a word.
pub fn word<T: Into<u32>>(x: Option<T>) -> u32 {
    x.map_or(0, |v| v.into() + 1)
}

pub fn value(w: u32) -> Option<u32> {
    w.checked_sub(1)
}

pub fn grant(octet: u32) -> BasicSlotgrant {
    BasicSlotgrant::from_bitbuf(&mut BitBuffer::from_bytes(&[octet as u8])).unwrap()
}

pub fn octet(g: &BasicSlotgrant) -> u32 {
    (g.capacity_allocation.into_raw() << 4 | g.granting_delay.into_raw()) as u32
}

/// Ten words, the first 1: words 11 to 20 of a record.
pub fn allocation(w: &[u32]) -> Option<ChanAllocElement> {
    (w[0] == 1).then(|| ChanAllocElement {
        alloc_type: (w[1] as u64).try_into().unwrap(),
        ts_assigned: [8, 4, 2, 1].map(|bit| w[2] & bit != 0),
        ul_dl_assigned: (w[3] as u64).try_into().unwrap(),
        clch_permission: w[4] == 1,
        cell_change_flag: w[5] == 1,
        carrier_num: w[6] as u16,
        ext: (w[7] == 1).then_some(0),
        mon_pattern: w[8] as u8,
        frame18_mon_pattern: value(w[9]).map(|p| p as u8),
    })
}

pub fn of_allocation(c: &ChanAllocElement) -> [u32; 10] {
    [
        1,
        c.alloc_type as u32,
        c.ts_assigned.iter().fold(0, |all, &bit| all << 1 | bit as u32),
        c.ul_dl_assigned as u32,
        c.clch_permission as u32,
        c.cell_change_flag as u32,
        c.carrier_num as u32,
        c.ext.is_some() as u32,
        c.mon_pattern as u32,
        word(c.frame18_mon_pattern),
    ]
}

/// The header of a queued record.
pub fn header(w: &Words) -> MacResource {
    MacResource {
        addr: Some(address(w[1] as u8, w[2])),
        pos_of_grant: w[4] as u8,
        encryption_mode: w[5] as u8,
        random_access_flag: w[6] == 1,
        event_label: value(w[7]).map(|v| v as u16),
        usage_marker: value(w[8]).map(|v| v as u8),
        power_control_element: value(w[9]).map(|v| v as u8),
        slot_granting_element: value(w[10]).map(grant),
        chan_alloc_element: allocation(&w[11..21]),
        ..Default::default()
    }
}

/// A record as the Rust queues it; with a tag it gets a report.
pub fn queued(rust: &mut Original, w: &Words, cell: &Cell) -> Queued {
    let address = address(w[1] as u8, w[2]);
    match w[0] {
        GRANT => Queued::Grant(address, grant(w[10] - 1), value(w[8]).map(|m| m as u8)),
        ACK => Queued::Ack(address),
        kind => {
            let mut sdu = sdu(cell, w[21] as usize);
            sdu.seek(w[22] as usize);
            Queued::Record {
                header: header(w),
                sdu,
                started: (kind != RECORD).then_some(kind == STARTED),
                report: value(w[3]).map(|tag| rust.report(tag as u16)),
            }
        }
    }
}

fn put_address(w: &mut Words, a: TetraAddress) {
    w[1] = [SsiType::Ssi, SsiType::Gssi, SsiType::Issi].iter().position(|t| *t == a.ssi_type).unwrap() as u32;
    w[2] = a.ssi;
}

/// A record of the Rust's queue as words, and its cell.
pub fn of_queued(rust: &Original, record: Queued) -> (Words, Cell) {
    let mut w = [0; 23];
    let mut cell = [0; 256];
    match record {
        Queued::Grant(a, g, marker) => {
            put_address(&mut w, a);
            w[8] = word(marker);
            w[10] = word(Some(octet(&g)));
        }
        Queued::Ack(a) => {
            w[0] = ACK;
            put_address(&mut w, a);
        }
        Queued::Record { header, mut sdu, started, report } => {
            w[0] = started.map_or(RECORD, |s| if s { STARTED } else { WAITING });
            put_address(&mut w, header.addr.unwrap());
            w[3] = word(report.map(|r| rust.reports.iter().find(|(_, of)| of.same(&r)).unwrap().0));
            w[4] = header.pos_of_grant as u32;
            w[5] = header.encryption_mode as u32;
            w[6] = header.random_access_flag as u32;
            w[7] = word(header.event_label);
            w[8] = word(header.usage_marker);
            w[9] = word(header.power_control_element);
            w[10] = word(header.slot_granting_element.as_ref().map(octet));
            if let Some(c) = &header.chan_alloc_element {
                w[11..21].copy_from_slice(&of_allocation(c));
            }
            w[21] = sdu.get_len() as u32;
            w[22] = sdu.get_pos() as u32;
            sdu.seek(0);
            let mut to = BitBuffer::new(2048);
            to.copy_bits(&mut sdu, w[21] as usize);
            cell.copy_from_slice(&to.into_bytes());
        }
    }
    (w, cell)
}
