//! Any sound queue, built until nothing is left of it. After each build the blocks, the tags and all that is left are the same.
//! usage: any_queue SEED QUEUES     random queues
//!        any_queue merging MOST    every list of up to MOST of sixteen records, acks and grants with two numbers
//!        any_queue rooms STEP      each room of a block, each header, each length of the SDU, all but every STEP-th passed over
use beside::compare::{same_build, same_memory};
use beside::draw;
use beside::memory::Memory;
use beside::words::{header, word, Cell, Words, ACK, GRANT, RECORD, STARTED, WAITING};
use original::random::Random;

#[derive(Default)]
struct Compared {
    queues: u64,
    blocks: u64,
    tags: u64,
    arose: u64,
    fragments: u64,
    two_begun: u64,
    longest: u64,
}

impl Compared {
    fn print(&self) {
        let Compared { queues, blocks, tags, arose, fragments, two_begun, longest } = self;
        println!("  queues: {queues}; blocks: {blocks}; tags: {tags}; records left begun: {fragments}");
        println!("  blocks in which the rule of W-201 arises: {arose}");
        println!("  builds that left two begun: {two_begun}; most blocks of a queue: {longest}");
        println!("any queue: all the same");
    }
}

fn build_all(at: &dyn Fn() -> String, mut ours: Memory, compared: &mut Compared) {
    let mut rust = ours.to_original();
    same_memory(at, &mut rust, &ours);
    let mut blocks = 0;
    loop {
        let at = || format!("{}, build {blocks}", at());
        let built = same_build(&at, &mut rust, &mut ours);
        same_memory(&at, &mut rust, &ours);
        let Some(finished) = built.tags else { break };
        let first = 16 * 23 * (ours.station[0] as usize - 1);
        let begun = ours.queue[first..][..16 * 23].chunks(23).filter(|w| w[0] == STARTED).count() as u64;
        compared.tags += finished as u64;
        compared.arose += built.arose as u64;
        compared.fragments += begun;
        compared.two_begun += (begun > 1) as u64;
        blocks += 1;
    }
    compared.queues += 1;
    compared.blocks += blocks;
    compared.longest = compared.longest.max(blocks);
}

fn random(seed: u64, queues: u64) {
    println!("any queue: seed {seed}, {queues} queues");
    let mut r = Random::new(seed);
    let mut compared = Compared::default();
    for n in 0..queues {
        let memory = draw::memory(&mut r);
        build_all(&|| format!("seed {seed}, queue {n}"), memory, &mut compared);
    }
    compared.print();
}

/// A new station at a time, no record queued.
fn station(t: u32, f: u32) -> Memory {
    let mut m = Memory::empty();
    m.station[..4].copy_from_slice(&[t, f, 5, 7]);
    m.station[220..224].fill(4);
    m
}

/// A record without other parts, its number also its tag.
fn plain(r: &mut Random, kind: u32, number: u32, bits: usize) -> (Words, Cell) {
    let mut w = [0; 23];
    w[0] = kind;
    w[2] = number;
    w[21] = bits as u32;
    if kind >= RECORD {
        w[3] = word(Some(number));
    }
    (w, draw::cell(r, bits))
}

/// For a number: three grants, an ack, two records, one waiting, one started.
fn alphabet(r: &mut Random, number: u32) -> Vec<(Words, Cell)> {
    let mut all = Vec::new();
    for (kind, octet, marker) in [(0, 0x10u32, None), (1, 0x20, Some(4u32)), (2, 0x31, Some(5))] {
        let mut grant = plain(r, GRANT, number, 0);
        grant.0[1] = kind;
        grant.0[8] = word(marker);
        grant.0[10] = word(Some(octet));
        all.push(grant);
    }
    all.push(plain(r, ACK, number, 0));
    let mut marked = plain(r, RECORD, number, 11);
    marked.0[8] = word(Some(60u32));
    all.push(marked);
    let mut group = plain(r, RECORD, number, 12);
    group.0[1] = 1;
    group.0[3] = 0;
    all.push(group);
    all.push(plain(r, WAITING, number, 13));
    all.push(plain(r, STARTED, number, 14));
    all
}

fn merging(most: u32) {
    println!("any queue: every list of up to {most} of sixteen, to merge");
    let mut r = Random::new(5);
    let letters = [alphabet(&mut r, 1), alphabet(&mut r, 2)].concat();
    let mut compared = Compared::default();
    for length in 1..=most {
        for code in 0..letters.len().pow(length) {
            let mut m = station(2, 9);
            let mut rest = code;
            for _ in 0..length {
                m.push(2, &letters[rest % letters.len()]);
                rest /= letters.len();
            }
            build_all(&|| format!("list {code} of {length}"), m, &mut compared);
        }
    }
    compared.print();
}

/// The parts of a header that make it longer, in all 24 ways.
fn lengthen(w: &mut Words, way: usize) {
    w[8] = if way & 1 != 0 { 6 } else { 0 };
    w[9] = if way & 2 != 0 { 10 } else { 0 };
    w[10] = if way & 4 != 0 { 17 } else { 0 };
    match way / 8 {
        1 => w[11..21].copy_from_slice(&[1, 1, 4, 3, 0, 1, 1000, 0, 1, 0]),
        2 => w[11..21].copy_from_slice(&[1, 1, 4, 3, 0, 1, 1000, 0, 0, 3]),
        _ => {}
    }
}

fn rooms(step: u64) {
    println!("any queue: each room, header and SDU length, one in {step}");
    let mut r = Random::new(77);
    let mut compared = Compared::default();
    let (mut case, mut exact) = (0, 0);
    // a record that takes some octets exactly, one of each kind, and a shorter one behind it
    let mut behind = |r: &mut Random, octets: usize, record: (Words, Cell), at: String| {
        case += 1;
        if case % step != 0 {
            return;
        }
        exact += (record.0[0] != STARTED && header(&record.0).compute_header_len() == 268 - 8 * octets) as u64;
        let mut m = station(3, 4);
        if octets > 0 {
            m.push(3, &plain(r, WAITING, 1, 8 * octets - 43));
        }
        m.push(3, &record);
        m.push(3, &plain(r, RECORD, 3, 200));
        build_all(&|| at.clone(), m, &mut compared);
    };
    for octets in std::iter::once(0).chain(6..=33) {
        for way in 0..24 {
            for kind in [RECORD, WAITING] {
                for bits in 0..=(308 - 8 * octets).min(310) {
                    let mut record = plain(&mut r, kind, 2, bits);
                    lengthen(&mut record.0, way);
                    behind(&mut r, octets, record, format!("{octets} octets taken, header {way}, kind {kind}, {bits} bits"));
                }
            }
        }
        for rest in 0..=330 {
            for sent in [0, 1, 225] {
                let mut record = plain(&mut r, STARTED, 2, rest + sent);
                record.0[22] = sent as u32;
                behind(&mut r, octets, record, format!("{octets} octets taken, {rest} bits left of a record with {sent} sent"));
            }
        }
    }
    println!("  headers that take all the room: {exact}");
    compared.print();
}

fn main() {
    let a: Vec<String> = std::env::args().skip(1).collect();
    let a: Vec<&str> = a.iter().map(String::as_str).collect();
    let number = |s: &str| s.parse::<u64>().expect("a number");
    match a[..] {
        ["merging", most] => merging(number(most) as u32),
        ["rooms", step] => rooms(number(step)),
        [seed, queues] => random(number(seed), number(queues)),
        _ => {
            println!("usage: any_queue SEED QUEUES | merging MOST | rooms STEP");
            std::process::exit(2);
        }
    }
}
