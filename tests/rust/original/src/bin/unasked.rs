//! What the Rust does with a stream of hexadecimal digits, no question asked before: the lines of tests/oracle/differences/NAME.rust.
//! usage: unasked [--tick]     --tick: a build is the Rust's own tick, which builds the slot after now
use original::commands::{from_hex, hex, number, operands, time};
use original::{FIRST_TIME, address, sdu};
use std::io::Read;
use std::panic::{AssertUnwindSafe, catch_unwind};
use tetra_core::TdmaTime;
use tetra_entities::umac::subcomp::bs_sched::BsChannelScheduler;
use tetra_pdus::umac::enums::reservation_requirement::ReservationRequirement;
use tetra_pdus::umac::pdus::mac_resource::MacResource;

fn request(s: &mut BsChannelScheduler, a: &[u8]) -> String {
    let address = address(a[2], number(&a[3..7]));
    let requirement = ReservationRequirement::try_from(a[1] as u64).expect("a requirement");
    let Some((grant, marker)) = s.ul_process_cap_req(a[0], address, &requirement) else {
        return "none".to_string();
    };
    s.dl_enqueue_grant(a[0], address, grant, marker);
    let (capacity, delay) = (grant.capacity_allocation.into_raw(), grant.granting_delay.into_raw());
    format!("granted {capacity} {delay} {}", marker.unwrap_or(0))
}

fn queue(s: &mut BsChannelScheduler, a: &[u8]) -> String {
    let bits = number(&a[8..10]) as usize;
    let pdu = MacResource { addr: Some(address(a[1], number(&a[2..6]))), ..Default::default() };
    s.dl_enqueue_tma_for_link(a[0] as u32, pdu, sdu(&[0; 8192], bits), None);
    "queued".to_string()
}

fn tick(s: &mut BsChannelScheduler) -> String {
    let TdmaTime { h, m, f, t } = s.cur_dltime.add_timeslots(1);
    let signalling = s.door_queued(t) > 0;
    let block = s.finalize_ts_for_tick().blk1.unwrap().mac_block;
    let text = if signalling { hex(&block.into_bytes()) } else { "no signalling".to_string() };
    format!("slot {h}/{m:02}/{f:02}/{t}: {text}")
}

fn main() {
    std::panic::set_hook(Box::new(|_| {}));
    let by_tick = std::env::args().any(|a| a == "--tick");
    let mut text = String::new();
    std::io::stdin().read_to_string(&mut text).unwrap();
    let input = from_hex(&text);
    let mut s = BsChannelScheduler::door_new(FIRST_TIME);
    let mut at = 0;
    while at < input.len() {
        let command = input[at];
        let a = &input[at + 1..][..operands(command).expect("a command")];
        at += 1 + a.len();
        let done = catch_unwind(AssertUnwindSafe(|| match command {
            0x54 => {
                s = BsChannelScheduler::door_new(time(a));
                "taken".to_string()
            }
            0x41 => {
                s.door_advance();
                "done".to_string()
            }
            0x52 => request(&mut s, a),
            0x51 => queue(&mut s, a),
            0x42 if by_tick => tick(&mut s),
            0x42 => s.door_build().map_or("none".to_string(), |b| hex(&b.into_bytes())),
            _ => unimplemented!("nothing is staged"),
        }));
        let letter = command as char;
        match done {
            Ok(text) => println!("{letter} {text}"),
            Err(why) => {
                let why = why.downcast_ref::<String>().cloned().or(why.downcast_ref::<&str>().map(|s| s.to_string()));
                println!("{letter} panics: {}", why.unwrap_or_default());
                return;
            }
        }
    }
}
