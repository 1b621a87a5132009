//! Random times, uplink tables and queued records, all sound (document 01, question 1), and records as they may be offered.
use crate::memory::{entry_at, Memory};
use crate::words::{header, word, Cell, Words, ACK, GRANT, RECORD, STARTED, WAITING};
use original::random::Random;
use tetra_core::TdmaTime;

/// Any valid time, often near the end of a multiframe or of the hyperframe.
pub fn time(r: &mut Random) -> TdmaTime {
    let near = r.one_in(3);
    TdmaTime {
        t: r.between(1, 4) as u8,
        f: if near { r.pick(&[1, 2, 15, 16, 17, 18]) } else { r.between(1, 18) as u8 },
        m: if near { r.pick(&[1, 59, 60]) } else { r.between(1, 60) as u8 },
        h: if near { r.pick(&[0, 65534, 65535]) } else { r.next() as u16 },
    }
}

/// A time, one in forty not valid.
pub fn any_time(r: &mut Random) -> TdmaTime {
    let mut time = time(r);
    if r.one_in(40) {
        match r.below(3) {
            0 => time.t = r.pick(&[0, 5, 255]),
            1 => time.f = r.pick(&[0, 19, 255]),
            _ => time.m = r.pick(&[0, 61, 255]),
        }
    }
    time
}

pub fn number(r: &mut Random) -> u32 {
    if r.one_in(8) {
        r.next() as u32 & 0xff_ffff
    } else {
        r.between(1, 4) as u32
    }
}

pub fn marker(r: &mut Random) -> u32 {
    r.between(4, 62) as u32
}

fn optional(r: &mut Random, limit: u64) -> u32 {
    word(r.one_in(2).then(|| r.below(limit) as u32))
}

/// An entry: "no second half without a first, a marker (4–62) only in a taken entry". It is taken `taken` times in 16.
fn entry(r: &mut Random, taken: u64) -> [u32; 3] {
    if r.below(16) >= taken {
        return [0; 3];
    }
    let first = word(Some(number(r)));
    let second = match r.below(3) {
        0 => 0,
        1 => first,
        _ => word(Some(number(r))),
    };
    [first, second, word(r.one_in(2).then(|| marker(r)))]
}

/// A time, a table and counters. Each row is taken to a degree of its own, in some a run is free or all of a run is taken.
pub fn station(r: &mut Random, now: TdmaTime) -> [u32; 228] {
    let mut s = [0; 228];
    s[..4].copy_from_slice(&[now.t as u32, now.f as u32, now.m as u32, now.h as u32]);
    for t in 1..=4 {
        let taken = r.pick(&[0, 1, 2, 4, 8, 12, 15, 16]);
        for f in 1..=18 {
            s[entry_at(t, f)..][..3].copy_from_slice(&entry(r, taken));
        }
        let (from, frames) = match r.below(4) {
            0 => (r.below(18), r.between(1, 17)),
            1 => (now.f as u64 - 1, r.between(11, 17)),
            _ => (0, 0),
        };
        let free = r.one_in(2);
        for f in from..from + frames {
            let run = if free { [0; 3] } else { entry(r, 16) };
            s[entry_at(t, (f % 18) as u8 + 1)..][..3].copy_from_slice(&run);
        }
        s[219 + t as usize] = if r.one_in(4) { r.pick(&[4, 61, 62]) } else { marker(r) };
    }
    s
}

/// A channel allocation, legal.
fn allocation(r: &mut Random) -> [u32; 10] {
    let pattern = r.below(4) as u32;
    let frame18 = if pattern == 0 { r.between(1, 4) as u32 } else { 0 };
    let [kind, timeslots, clch, cell_change, carrier] = [4, 16, 2, 2, 4096].map(|limit| r.below(limit) as u32);
    [1, kind, timeslots, r.between(1, 3) as u32, clch, cell_change, carrier, 0, pattern, frame18]
}

/// A record's header parts, legal and without a grant.
pub fn parts(r: &mut Random, w: &mut Words) {
    w[3] = word((!r.one_in(3)).then(|| r.next() as u16));
    w[4] = r.below(2) as u32;
    w[6] = r.below(2) as u32;
    w[8] = optional(r, 64);
    w[9] = optional(r, 16);
    if r.one_in(3) {
        w[11..21].copy_from_slice(&allocation(r));
    }
}

/// Bits of an SDU, often near where a block's end, an octet or a continuation makes the answer change.
pub fn bits(r: &mut Random, w: &Words) -> u32 {
    let h = header(w).compute_header_len() as i64;
    let near = |r: &mut Random, n: i64, by: i64| n + r.below(2 * by as u64 + 1) as i64 - by;
    let n = match r.below(9) {
        0 => 0,
        1 => r.below(20) as i64,
        2 => near(r, 268 - h, 4),
        3 => r.below(2049) as i64,
        4 => 2048 - r.below(4) as i64,
        5 => near(r, 225 + 251, 15),
        6 => {
            let octets = r.below(30) as i64;
            near(r, 8 * octets - h, 1)
        }
        7 => near(r, 259, 8),
        _ => r.below(120) as i64,
    };
    n.clamp(0, 2048) as u32
}

/// Random octets, the bits past the SDU zero.
pub fn cell(r: &mut Random, bits: usize) -> Cell {
    let mut cell = [0; 256];
    cell.fill_with(|| if r.one_in(4) { 0 } else { r.next() as u8 });
    for bit in bits..2048 {
        cell[bit / 8] &= !(0x80 >> (bit % 8));
    }
    cell
}

/// A queued record of one of some kinds.
pub fn record(r: &mut Random, kinds: &[u32]) -> (Words, Cell) {
    let mut w = [0; 23];
    w[0] = r.pick(kinds);
    w[1] = r.below(3) as u32;
    w[2] = number(r);
    if w[0] == GRANT {
        w[8] = optional(r, 64);
        w[10] = word(Some(r.next() as u8));
    }
    if w[0] < RECORD {
        return (w, [0; 256]);
    }
    parts(r, &mut w);
    if r.one_in(3) {
        w[10] = word(Some(r.next() as u8));
    }
    w[21] = bits(r, &w);
    if w[0] == STARTED {
        w[22] = match r.below(4) {
            0 => 0,
            1 => w[21],
            2 => w[21].saturating_sub(r.below(300) as u32),
            _ => r.below(w[21] as u64 + 1) as u32,
        };
    }
    let cell = cell(r, w[21] as usize);
    (w, cell)
}

/// A sound memory with up to sixteen records for each timeslot, and one at least for the present one.
pub fn memory(r: &mut Random) -> Memory {
    let kinds: &[u32] =
        r.pick(&[&[GRANT, ACK, RECORD, WAITING, STARTED][..], &[RECORD, WAITING, STARTED], &[GRANT, ACK, RECORD], &[RECORD]]);
    let now = time(r);
    let mut m = Memory { station: station(r, now), ..Memory::empty() };
    for t in 1..=4 {
        let least = (t == now.t) as u64;
        for _ in 0..r.between(least, 16) {
            m.push(t, &record(r, kinds));
        }
    }
    m
}

/// A record as it may be offered: one field in some is not legal.
pub fn offered(r: &mut Random) -> Words {
    let mut w = [0; 23];
    w[0] = r.below(5) as u32;
    w[1] = if r.one_in(60) { 3 } else { r.below(3) as u32 };
    w[2] = if r.one_in(40) { 1 << 24 } else { number(r) };
    parts(r, &mut w);
    if r.one_in(6) {
        match r.below(9) {
            0 => w[4] = r.between(2, 255) as u32,
            1 => w[5] = r.between(1, 255) as u32,
            2 => w[6] = r.between(2, 255) as u32,
            3 => w[7] = word(Some(r.below(1 << 16) as u32)),
            4 => w[8] = word(Some(r.between(64, 255) as u32)),
            5 => w[9] = word(Some(r.between(16, 255) as u32)),
            6 => w[10] = word(Some(r.next() as u8)),
            _ => {
                w[11..21].copy_from_slice(&allocation(r));
                match r.below(9) {
                    0 => w[12] = r.between(4, 255) as u32,
                    1 => w[13] = r.between(16, 255) as u32,
                    2 => w[14] = r.pick(&[0, 4, 255]),
                    3 => w[15] = r.between(2, 255) as u32,
                    4 => w[16] = r.between(2, 255) as u32,
                    5 => w[17] = r.between(4096, 65535) as u32,
                    6 => w[18] = r.between(1, 255) as u32,
                    7 => w[19] = r.between(4, 255) as u32,
                    _ => w[20] = if w[20] == 0 { r.between(1, 4) as u32 } else { r.pick(&[0, 5, 256]) },
                }
            }
        }
    }
    w[21] = if r.one_in(20) { r.pick(&[2049, 2050, 4096, 65535]) } else { r.below(2049) as u32 };
    if r.one_in(2) {
        w[21] = r.below(240) as u32;
    }
    w
}
