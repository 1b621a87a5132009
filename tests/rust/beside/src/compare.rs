//! What was compared, counted by call and number; and the end of a program that sees a difference.
use crate::arises::by_document_02;
use crate::memory::Memory;
use original::Original;
use std::collections::BTreeMap;
use std::fmt::Debug;

#[derive(Default)]
pub struct Counts(BTreeMap<(&'static str, u8), u64>);

impl Counts {
    pub fn add(&mut self, call: &'static str, number: u8) {
        *self.0.entry((call, number)).or_default() += 1;
    }

    /// "call: so many done, refused with 3: so many", .. for each call.
    pub fn print(&self) {
        let mut lines: BTreeMap<&str, String> = BTreeMap::new();
        for ((call, number), count) in &self.0 {
            let line = lines.entry(call).or_insert(format!("  {call}:"));
            *line += &if *number == 0 { format!(" {count} done") } else { format!(", {count} with {number}") };
        }
        for line in lines.values() {
            println!("{}", line.replace(":,", ":"));
        }
    }
}

/// Ends the program if the two are not the same.
pub fn same<T: PartialEq + Debug>(at: &dyn Fn() -> String, what: &str, rust: T, ours: T) {
    if rust != ours {
        println!("{}: {what} differs\n  the Rust: {rust:?}\n  ours:     {ours:?}", at());
        std::process::exit(1);
    }
}

/// How many tags a build gave back, none without a block; and whether W-201's rule arose in it.
pub struct Build {
    pub tags: Option<usize>,
    pub arose: bool,
}

/// Builds both; ends the program if the blocks or the tags are not the same. Where W-201's rule arises the Rust's block must be another,
/// ours is held to document 02's, and the Rust goes on from the state that this leaves.
pub fn same_build(at: &dyn Fn() -> String, rust: &mut Original, ours: &mut Memory) -> Build {
    let lent = [0x5a; 34];
    let mut block = lent;
    let reply = ours.build(&mut block);
    let other = by_document_02(rust);
    let mut built = rust.build();
    let arose = other.is_some();
    if let Some((by_02, left)) = other {
        same(at, "W-201: whether the Rust's block is another", built.unwrap().0 != block, true);
        built = Some(by_02);
        *rust = left;
    }
    let (theirs, tags) = built.map_or((lent, None), |(block, tags)| (block, Some(tags)));
    let finished = tags.as_ref().map(Vec::len);
    same(at, "a block", theirs, block);
    same(at, "a build", Ok(tags), reply);
    Build { tags: finished, arose }
}

/// Ends the program if the Rust's memory, as words, is not ours.
pub fn same_memory(at: &dyn Fn() -> String, rust: &mut Original, ours: &Memory) {
    let theirs = Memory::of(rust);
    for (i, (a, b)) in theirs.station.iter().zip(&ours.station).enumerate() {
        same(at, &format!("word {i} of the station"), a, b);
    }
    if theirs.queue != ours.queue {
        for (i, (a, b)) in theirs.queue.chunks(23).zip(ours.queue.chunks(23)).enumerate() {
            same(at, &format!("record {i} of the queue"), a, b);
        }
    }
    if theirs.store != ours.store {
        for (i, (a, b)) in theirs.store.chunks(256).zip(ours.store.chunks(256)).enumerate() {
            same(at, &format!("cell {i} of the store"), a, b);
        }
    }
}

/// The numbers behind a program's name.
pub fn arguments<const N: usize>(usage: &str) -> [u64; N] {
    let all: Vec<u64> = std::env::args().skip(1).filter_map(|a| a.parse().ok()).collect();
    all.try_into().unwrap_or_else(|_| {
        println!("usage: {usage}");
        std::process::exit(2)
    })
}
