//! Histories on a new station at any time: advances, requests, acks, records with every part of a header, builds, owners and usage,
//! refused ones too. After each call the answers are the same, and so is all that the two stations hold.
//! usage: any_history SEED HISTORIES CALLS
use beside::compare::{arguments, same, same_build, same_memory, Counts};
use beside::draw;
use beside::memory::Memory;
use beside::words::{header, Words};
use original::random::Random;
use original::Original;

/// Question 6 for a record offered to the queue.
fn legal(w: &Words) -> bool {
    let below = |optional: u32, limit: u32| optional <= limit;
    let alone = w[4] < 2 && w[5] == 0 && w[6] < 2 && w[7] == 0 && below(w[8], 64) && below(w[9], 16) && w[10] == 0;
    let pattern = w[19] < 4 && (w[20] > 0) == (w[19] == 0) && below(w[20], 4);
    let fields = w[12] < 4 && w[13] < 16 && (1..4).contains(&w[14]) && w[15] < 2 && w[16] < 2 && w[17] < 4096 && w[18] == 0;
    alone && (w[11] == 0 || pattern && fields)
}

/// Mostly one of two timeslots, so that queues fill.
fn timeslot(r: &mut Random) -> u8 {
    if r.one_in(40) {
        r.pick(&[0, 5, 255])
    } else {
        r.pick(&[1, 1, 1, 2, 2, 3, 4])
    }
}

fn kind(r: &mut Random) -> u8 {
    if r.one_in(60) {
        r.pick(&[3, 255])
    } else {
        r.below(3) as u8
    }
}

fn number(r: &mut Random) -> u32 {
    if r.one_in(40) {
        1 << 24
    } else {
        draw::number(r)
    }
}

fn call(r: &mut Random, load: u64, rust: &mut Original, ours: &mut Memory, counts: &mut Counts, at: &dyn Fn() -> String) {
    match r.below(12) {
        0..=2 => {
            rust.advance();
            same(at, "an advance", 0, ours.advance());
            counts.add("advances", 0);
        }
        3 | 4 => {
            let (timeslot, code, kind, number) = (timeslot(r), r.below(17) as u8, kind(r), number(r));
            let reply = rust.request(timeslot, code, kind, number);
            same(at, "a request", reply, ours.request(timeslot, code, kind, number));
            counts.add("requests", reply.err().unwrap_or(0));
        }
        5 => {
            let (timeslot, kind, number) = (timeslot(r), kind(r), number(r));
            let reply = rust.ack(timeslot, kind, number);
            same(at, "an ack", reply, ours.ack(timeslot, kind, number));
            counts.add("acks", reply);
        }
        6 | 7 if r.below(3) < load => {
            let (timeslot, w) = (timeslot(r), draw::offered(r));
            let mut octets = [0; 256];
            r.fill(&mut octets);
            let whole = (w[21] as usize).div_ceil(8).min(256);
            let lent = &octets[..match r.below(8) {
                0 => whole,
                1 => whole.saturating_sub(1),
                _ => 256,
            }];
            let kind = w[1].min(255) as u8;
            let tag = beside::words::value(w[3]).map(|t| t as u16);
            let reply = rust.queue(timeslot, kind, w[2], legal(&w), || header(&w), tag, lent, w[21] as usize);
            same(at, &format!("a record {w:?}"), reply, ours.enqueue(timeslot, &w, lent));
            counts.add("records", reply);
        }
        6..=9 => {
            let built = same_build(at, rust, ours);
            counts.add(if built.tags.is_some() { "blocks" } else { "builds without a block" }, 0);
            if built.arose {
                counts.add("blocks in which the rule of W-201 arises", 0);
            }
        }
        10 => {
            let time = draw::any_time(r);
            let reply = rust.owners(time);
            same(at, "owners", reply, ours.owners(time));
            counts.add("owners", reply.err().unwrap_or(0));
        }
        _ => {
            let time = draw::any_time(r);
            let reply = rust.usage(time);
            same(at, "usage", reply, ours.usage(time));
            counts.add("usage", reply.err().unwrap_or(0));
        }
    }
}

fn main() {
    let [seed, histories, calls] = arguments("any_history SEED HISTORIES CALLS");
    println!("any history: seed {seed}, {histories} histories of {calls} calls");
    let mut r = Random::new(seed);
    let mut counts = Counts::default();
    for history in 0..histories {
        let time = draw::any_time(&mut r);
        let mut ours = Memory::empty();
        let new = Original::new(time);
        let number = ours.new(time);
        same(&|| format!("history {history}"), "a new station", new.as_ref().err().copied().unwrap_or(0), number);
        counts.add("new stations", number);
        let Ok(mut rust) = new else { continue };
        let load = r.between(1, 3);
        for n in 0..calls {
            let at = || format!("seed {seed}, history {history}, call {n}");
            call(&mut r, load, &mut rust, &mut ours, &mut counts, &at);
            same_memory(&at, &mut rust, &ours);
        }
    }
    counts.print();
    println!("any history: all the same");
}
