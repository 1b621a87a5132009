//! Any sound uplink table, time and counters. For each: the owners and the usage of every entry; a request with every code on each
//! timeslot, each in the same state; then a run of advances and requests. The table is compared entry by entry after each call.
//! usage: any_table SEED TABLES
use beside::compare::{arguments, same, same_memory, Counts};
use beside::draw;
use beside::memory::Memory;
use beside::words::ACK;
use original::random::Random;
use original::Original;
use tetra_core::TdmaTime;

struct Compared {
    counts: Counts,
    entries: u64,
}

fn read(at: &dyn Fn() -> String, rust: &Original, ours: &Memory, time: TdmaTime, compared: &mut Compared) {
    let owners = rust.owners(time);
    same(at, &format!("owners of {time}"), owners, ours.owners(time));
    compared.counts.add("owners", owners.err().unwrap_or(0));
    let usage = rust.usage(time);
    same(at, &format!("usage of {time}"), usage, ours.usage(time));
    compared.counts.add("usage", usage.err().unwrap_or(0));
}

fn request(
    at: &dyn Fn() -> String,
    rust: &mut Original,
    ours: &mut Memory,
    (timeslot, code, kind, number): (u8, u8, u8, u32),
    compared: &mut Compared,
) {
    let reply = rust.request(timeslot, code, kind, number);
    let what = format!("the answer for timeslot {timeslot}, code {code}, kind {kind}, number {number}");
    same(at, &what, reply, ours.request(timeslot, code, kind, number));
    same_memory(at, rust, ours);
    compared.counts.add("requests", reply.err().unwrap_or(0));
    compared.entries += 72;
}

fn main() {
    let [seed, tables] = arguments("any_table SEED TABLES");
    println!("any table: seed {seed}, {tables} tables");
    let mut r = Random::new(seed);
    let mut compared = Compared { counts: Counts::default(), entries: 0 };
    for table in 0..tables {
        let at = || format!("seed {seed}, table {table}");
        let now = draw::time(&mut r);
        let mut start = Memory { station: draw::station(&mut r, now), ..Memory::empty() };
        for t in 1..=4 {
            for _ in 0..r.pick(&[0, 0, 0, 1, 15, 16]) {
                start.push(t, &draw::record(&mut r, &[ACK]));
            }
        }
        let mut rust = start.to_original();
        same_memory(&at, &mut rust, &start);
        for t in 1..=4 {
            for f in 1..=18 {
                read(&at, &rust, &start, TdmaTime { t, f, ..draw::time(&mut r) }, &mut compared);
            }
        }
        read(&at, &rust, &start, draw::any_time(&mut r), &mut compared);
        for code in 0..=16 {
            for timeslot in [1, 2, 3, 4, r.pick(&[0, 5, 255])] {
                let of = (timeslot, code, r.below(3) as u8, draw::number(&mut r));
                request(&at, &mut start.to_original(), &mut start.clone(), of, &mut compared);
            }
        }
        let mut ours = start;
        for _ in 0..r.below(100) {
            if r.one_in(3) {
                let of = (r.between(1, 4) as u8, r.pick(&[0, 0, 1, 1, 2, 3, 4, 5, 6, 7, 8, 9, 10]), r.below(4) as u8, draw::number(&mut r));
                request(&at, &mut rust, &mut ours, of, &mut compared);
            } else {
                rust.advance();
                same(&at, "an advance", 0, ours.advance());
                same_memory(&at, &mut rust, &ours);
                compared.counts.add("advances", 0);
                compared.entries += 72;
            }
        }
    }
    compared.counts.print();
    println!("  entries of tables: {}", compared.entries);
    println!("any table: all the same");
}
