//! `slotrun`'s interpreter and the published scheduler on the same streams, in one run: nanoseconds a command, and their ratio.
//!
//! A command is timed by difference: a stream in which a station is prepared and the command given, less the same stream without the
//! command. Ours reads the commands, asks the questions and prints the lines; the original is called directly and prints nothing.
mod original;

use std::hint::black_box;
use std::time::Instant;

unsafe extern "C" {
    fn slotrun_run(input: *const u8, input_len: usize, out: *mut u8, out_len: usize) -> u64;
}

/// The interpreter on a stream, into `out`.
fn ours(input: &[u8], out: &mut [u8]) -> u64 {
    // SAFETY: both slices are valid for their lengths and do not overlap.
    unsafe { slotrun_run(input.as_ptr(), input.len(), out.as_mut_ptr(), out.len()) }
}

const NEW: [u8; 6] = [0x54, 0, 0, 1, 1, 1];
const REQUEST: [u8; 8] = [0x52, 1, 1, 0, 0, 0, 0, 1];
const REFUSED: [u8; 8] = [0x52, 9, 1, 0, 0, 0, 0, 1];

fn queue_for(timeslot: u8, number: u8, bits: u16) -> Vec<u8> {
    let [high, low] = bits.to_be_bytes();
    vec![0x51, timeslot, 0, 0, 0, 0, number, 0, number, high, low]
}

fn queue(number: u8, bits: u16) -> Vec<u8> {
    queue_for(1, number, bits)
}

fn records(count: u8, bits: u16) -> Vec<u8> {
    (1..=count).flat_map(|n| queue(n, bits)).collect()
}

/// Sixteen records for each timeslot: no place is left.
fn all_places(bits: u16) -> Vec<u8> {
    (1..=4).flat_map(|t| (1..=16).flat_map(move |n| queue_for(t, n, bits))).collect()
}

fn joined(parts: &[&[u8]]) -> Vec<u8> {
    parts.concat()
}

/// The least time of many rounds of a stream that repeats `unit`, in nanoseconds a repetition.
fn least(unit: &[u8], times: usize, mut run: impl FnMut(&[u8]) -> u64) -> f64 {
    let stream = unit.repeat(times);
    let mut best = f64::MAX;
    for _ in 0..400 {
        let start = Instant::now();
        black_box(run(black_box(&stream)));
        best = best.min(start.elapsed().as_nanos() as f64 / times as f64);
    }
    best
}

/// Times a command behind what prepares it, for both, and prints the row.
fn row(name: &str, before: &[u8], command: &[u8], out: &mut [u8]) {
    let with = joined(&[before, command]);
    let times = (4_000 / with.len()).max(8);
    let mut us = least(&with, times, |s| ours(s, out));
    let mut them = least(&with, times, original::run);
    if !before.is_empty() {
        us -= least(before, times, |s| ours(s, out));
        them -= least(before, times, original::run);
    }
    println!("{name:<52} {us:>9.0} {them:>9.0} {:>7.1}", us / them);
}

fn main() {
    let mut out = vec![0u8; 173 * 10_000];
    println!("{:<52} {:>9} {:>9} {:>7}", "nanoseconds", "ours", "original", "ratio");
    row("advance", &[], &[0x41], &mut out);
    row("request refused with 3 (the questions alone)", &NEW, &REFUSED, &mut out);
    row("the same, all 64 places filled", &joined(&[&NEW, &all_places(40)]), &REFUSED, &mut out);
    row("request granted, one slot", &NEW, &REQUEST, &mut out);
    row("request granted, 17 slots", &NEW, &[0x52, 1, 10, 0, 0, 0, 0, 1], &mut out);
    row("record queued, 40 bits", &NEW, &queue(1, 40), &mut out);
    row("record queued, 2,048 bits", &NEW, &queue(1, 2048), &mut out);
    row("record queued behind fourteen, 40 bits", &joined(&[&NEW, &records(14, 40)]), &queue(15, 40), &mut out);
    row("build, nothing queued", &NEW, &[0x42], &mut out);
    row("build, one grant", &joined(&[&NEW, &REQUEST]), &[0x42], &mut out);
    for count in [1, 4, 16] {
        row(&format!("build, records of 40 bits: {count}"), &joined(&[&NEW, &records(count, 40)]), &[0x42], &mut out);
    }
    for bits in [0, 100, 221, 512, 1024, 2048] {
        row(&format!("build, one record, SDU bits: {bits}"), &joined(&[&NEW, &queue(1, bits)]), &[0x42], &mut out);
    }
    row("ten builds of one record of 2,048 bits", &joined(&[&NEW, &queue(1, 2048)]), &[0x42; 10], &mut out);
    for path in std::env::args().skip(1) {
        let stream = std::fs::read(&path).unwrap();
        let mut text = vec![0u8; 173 * stream.len()];
        let us = least(&stream, 1, |s| ours(s, &mut text));
        let them = least(&stream, 1, original::run);
        let name = format!("stream {}, {} octets", path.rsplit('/').next().unwrap(), stream.len());
        println!("{name:<52} {us:>9.0} {them:>9.0} {:>7.1}", us / them);
    }
}
