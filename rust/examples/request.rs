//! Schedules a request for one slot and prints the block that carries its grant.
use bs_sched::{Address, AddressKind, Refusal, Requirement, Scheduler, Time};

fn main() -> Result<(), Refusal> {
    let mut scheduler = Scheduler::new(Time { h: 0, m: 1, f: 1, t: 1 })?;
    let grant = scheduler.request(1, Requirement::Req1Slot, Address { kind: AddressKind::Ssi, number: 1 })?;
    println!("capacity {:?}, delay {}, usage marker {:?}", grant.capacity, grant.delay, grant.usage_marker);
    if let Some(built) = scheduler.build()? {
        let text: String = built.block.iter().map(|o| format!("{o:02x}")).collect();
        println!("{text}");
    }
    Ok(())
}
