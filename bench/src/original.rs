//! The published scheduler behind `slotrun`'s commands, called directly: no text is made, no tag is watched.
use std::hint::black_box;
use tetra_core::{BitBuffer, SsiType, TdmaTime, TetraAddress, TxReporter};
use tetra_entities::umac::subcomp::bs_sched::BsChannelScheduler;
use tetra_pdus::umac::enums::reservation_requirement::ReservationRequirement;
use tetra_pdus::umac::pdus::mac_resource::MacResource;

fn number(octets: &[u8]) -> u32 {
    octets.iter().fold(0, |n, &o| n << 8 | o as u32)
}

fn address(kind: u8, ssi: u32) -> TetraAddress {
    let ssi_type = [SsiType::Ssi, SsiType::Gssi, SsiType::Issi][kind as usize];
    TetraAddress { ssi, ssi_type }
}

fn sdu(stage: &[u8; 256], bits: usize) -> BitBuffer {
    let mut to = BitBuffer::new(bits);
    to.copy_bits(&mut BitBuffer::from_bytes(stage), bits);
    to.seek(0);
    to
}

fn is_open(s: &BsChannelScheduler, timeslot: u8, kind: u8, ssi: u32) -> bool {
    (1..=4).contains(&timeslot) && kind < 3 && ssi < 1 << 24 && s.door_queued(timeslot) < 16
}

/// How many octets a command has, 0 where it is unknown.
fn length(command: u8) -> usize {
    match command {
        0x54 => 6,
        0x41 | 0x42 => 1,
        0x52 => 8,
        0x53 => 34,
        0x51 => 11,
        _ => 0,
    }
}

/// Runs the whole commands at the front of a stream, and answers how many requests were granted and blocks built.
pub fn run(input: &[u8]) -> u64 {
    let mut s = BsChannelScheduler::door_new(TdmaTime { h: 0, m: 1, f: 1, t: 1 });
    let mut stage = [0u8; 256];
    let (mut at, mut done) = (0, 0);
    while at < input.len() {
        let octets = length(input[at]);
        if octets == 0 || input.len() - at < octets {
            break;
        }
        let a = &input[at + 1..at + octets];
        match input[at] {
            0x54 => {
                let time = TdmaTime { h: number(&a[..2]) as u16, m: a[2], f: a[3], t: a[4] };
                if time.is_valid() {
                    s = BsChannelScheduler::door_new(time);
                }
            }
            0x41 => s.door_advance(),
            0x52 => {
                let ssi = number(&a[3..7]);
                if a[1] < 16 && is_open(&s, a[0], a[2], ssi) {
                    let wanted = ReservationRequirement::try_from(a[1] as u64).unwrap();
                    if let Some((grant, marker)) = s.ul_process_cap_req(a[0], address(a[2], ssi), &wanted) {
                        s.dl_enqueue_grant(a[0], address(a[2], ssi), grant, marker);
                        done += 1;
                    }
                }
            }
            0x53 => {
                if a[0] < 8 {
                    stage[32 * a[0] as usize..][..32].copy_from_slice(&a[1..33]);
                }
            }
            0x51 => {
                let (ssi, bits) = (number(&a[2..6]), number(&a[8..10]) as usize);
                if bits <= 2048 && is_open(&s, a[0], a[1], ssi) {
                    let pdu = MacResource { addr: Some(address(a[1], ssi)), ..Default::default() };
                    s.door_enqueue_on(a[0], pdu, sdu(&stage, bits), Some(TxReporter::new_unacked()));
                }
            }
            _ => {
                if s.cur_dltime.f != 18 {
                    if let Some(block) = s.door_build() {
                        black_box(block.into_bytes());
                        done += 1;
                    }
                }
            }
        }
        at += octets;
    }
    done
}
