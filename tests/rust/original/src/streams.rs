//! Random streams of commands, by seed. The seed's remainder by nine picks what a stream is rich in.
use crate::random::Random;

/// How often each command comes, and what its operands are drawn from.
struct Mix {
    advance: u64,
    advances: u64,
    request: u64,
    stage: u64,
    queue: u64,
    build: u64,
    new: u64,
    /// one operand in so many is bad; 0: none
    bad: u64,
    timeslots: &'static [u8],
    codes: &'static [u8],
    numbers: u64,
    long: bool,
    near_wrap: bool,
}

const ANY: Mix = Mix {
    advance: 30,
    advances: 3,
    request: 20,
    stage: 3,
    queue: 15,
    build: 25,
    new: 1,
    bad: 40,
    timeslots: &[1, 2, 3, 4],
    codes: &[0, 0, 1, 1, 2, 3, 4, 5, 6, 7, 8, 9, 10, 11, 12, 13, 14, 15],
    numbers: 5,
    long: false,
    near_wrap: false,
};
const REQUESTS: Mix = Mix {
    advance: 6,
    advances: 1,
    request: 60,
    stage: 0,
    queue: 2,
    new: 0,
    bad: 0,
    timeslots: &[1],
    codes: &[0, 0, 0, 1, 1, 1, 2, 2, 3, 4, 5, 6, 7, 10],
    numbers: 4,
    ..ANY
};
const FRAGMENTS: Mix = Mix {
    advance: 15,
    advances: 5,
    request: 8,
    stage: 8,
    queue: 14,
    build: 60,
    new: 0,
    bad: 0,
    timeslots: &[1, 2],
    codes: &[0, 1, 2, 3],
    numbers: 3,
    long: true,
    ..ANY
};
const MERGES: Mix = Mix {
    advance: 12,
    request: 30,
    stage: 2,
    queue: 30,
    build: 14,
    new: 0,
    bad: 0,
    timeslots: &[1, 3],
    codes: &[0, 1, 1, 2, 2, 3, 4],
    numbers: 2,
    ..ANY
};
const HYPERFRAME: Mix = Mix {
    advance: 50,
    advances: 8,
    request: 25,
    stage: 1,
    queue: 6,
    build: 14,
    new: 2,
    bad: 0,
    codes: &[0, 0, 1, 2, 3, 4, 5, 6, 7, 8, 9, 10],
    near_wrap: true,
    ..ANY
};
const REFUSALS: Mix = Mix {
    advance: 15,
    advances: 1,
    request: 30,
    stage: 8,
    queue: 25,
    build: 15,
    new: 6,
    bad: 3,
    codes: &[0, 1, 2, 3, 10, 15],
    numbers: 4,
    ..ANY
};
const FULL_QUEUE: Mix = Mix {
    advance: 4,
    advances: 1,
    request: 25,
    stage: 2,
    queue: 45,
    build: 24,
    new: 0,
    bad: 0,
    timeslots: &[2],
    codes: &[0, 1, 2],
    numbers: 6,
    ..ANY
};
const FRAME_18: Mix = Mix {
    advances: 16,
    request: 30,
    stage: 1,
    queue: 12,
    build: 22,
    new: 2,
    bad: 60,
    timeslots: &[1, 4],
    codes: &[0, 1, 2, 3, 9, 10],
    numbers: 4,
    near_wrap: true,
    ..ANY
};
const MARKERS: Mix = Mix {
    advances: 30,
    request: 40,
    stage: 0,
    queue: 2,
    build: 12,
    new: 0,
    bad: 0,
    timeslots: &[1],
    codes: &[2, 2, 2, 3, 1, 0],
    near_wrap: true,
    ..ANY
};
const MIXES: [Mix; 9] = [ANY, REQUESTS, FRAGMENTS, MERGES, HYPERFRAME, REFUSALS, FULL_QUEUE, FRAME_18, MARKERS];

/// Bits of an SDU near which the answer changes.
const EDGES: &[u16] = &[
    0, 1, 2, 3, 4, 5, 6, 7, 8, 9, 12, 13, 20, 21, 22, 23, 28, 29, 30, 31, 36, 37, 38, 45, 52, 53, 60, 61, 100, 101, 116, 117, 128, 133,
    149, 165, 180, 181, 182, 189, 196, 197, 204, 205, 206, 207, 208, 209, 210, 211, 212, 213, 214, 215, 216, 217, 218, 219, 220, 221, 222,
    223, 224, 225, 226, 227, 228, 229, 230, 236, 244, 245, 251, 252, 253, 264, 265, 466, 467, 468, 474, 475, 476, 477, 478, 479, 488, 489,
    490, 730, 739, 740, 741, 742, 1000, 1500, 2040, 2041, 2046, 2047, 2048,
];
const NUMBERS: [u32; 6] = [1, 2, 0x00FF_FFFF, 0, 0x80_0000, 0x7F_FFFF];

fn time(r: &mut Random, near_wrap: bool) -> [u8; 5] {
    let (h, m, f): (u16, u8, u8) = if near_wrap {
        (r.pick(&[65535, 65535, 65535, 0, 65534, 32767]), r.pick(&[60, 60, 60, 59, 1, 30]), r.pick(&[18, 17, 16, 15, 14, 10, 2, 1]))
    } else {
        (r.next() as u16, r.between(1, 60) as u8, r.between(1, 18) as u8)
    };
    [(h >> 8) as u8, h as u8, m, f, r.between(1, 4) as u8]
}

fn bad(r: &mut Random, mix: &Mix) -> bool {
    mix.bad != 0 && r.one_in(mix.bad)
}

fn number(r: &mut Random, mix: &Mix, bad: bool) -> [u8; 4] {
    let n = if bad {
        r.pick(&[0x0100_0000, 0x0100_0001, 0xFFFF_FFFF, 0x8000_0000, 0x01FF_FFFF])
    } else if r.one_in(12) {
        r.next() as u32 & 0x00FF_FFFF
    } else {
        NUMBERS[r.below(mix.numbers) as usize]
    };
    n.to_be_bytes()
}

fn timeslot(r: &mut Random, mix: &Mix, bad: bool) -> u8 {
    if bad { r.pick(&[0, 5, 6, 128, 255]) } else { r.pick(mix.timeslots) }
}

fn kind(r: &mut Random, bad: bool) -> u8 {
    if bad { r.pick(&[3, 4, 7, 255]) } else { r.below(3) as u8 }
}

fn bits(r: &mut Random, mix: &Mix, bad: bool) -> [u8; 2] {
    let n: u16 = if bad {
        r.pick(&[2049, 2050, 4096, 65535, 2056])
    } else if r.one_in(3) {
        r.below(2049) as u16
    } else if mix.long || r.one_in(4) {
        r.pick(EDGES)
    } else {
        r.below(120) as u16
    };
    n.to_be_bytes()
}

fn request(r: &mut Random, mix: &Mix) -> Vec<u8> {
    let b = [(); 4].map(|_| bad(r, mix));
    let mut c = vec![0x52, timeslot(r, mix, b[0])];
    c.push(if b[1] { r.pick(&[16, 17, 99, 255]) } else { r.pick(mix.codes) });
    c.push(kind(r, b[2]));
    c.extend(number(r, mix, b[3]));
    c
}

fn queue(r: &mut Random, mix: &Mix) -> Vec<u8> {
    let b = [(); 4].map(|_| bad(r, mix));
    let mut c = vec![0x51, timeslot(r, mix, b[0]), kind(r, b[1])];
    c.extend(number(r, mix, b[2]));
    let tag = if r.one_in(3) { r.pick(&[0u16, 1, 65535, 7]) } else { r.next() as u16 };
    c.extend(tag.to_be_bytes());
    c.extend(bits(r, mix, b[3]));
    c
}

fn stage(r: &mut Random, mix: &Mix) -> Vec<u8> {
    let index = if bad(r, mix) { r.pick(&[8, 9, 255]) } else { r.below(8) as u8 };
    let style = r.below(5);
    let mut c = vec![0x53, index];
    c.extend((0..32).map(|k| match style {
        0 => 0xFF,
        1 => 0,
        2 => k,
        _ => r.next() as u8,
    }));
    c
}

/// The whole SDU staged, so that not all are zero.
fn stage_all(r: &mut Random) -> Vec<Vec<u8>> {
    let style = r.below(4);
    let part = |i: u8| {
        let octets = (0..32).map(|k| match style {
            0 => 0xFF,
            1 => i * 32 + k,
            _ => r.next() as u8,
        });
        [0x53, i].into_iter().chain(octets).collect()
    };
    (0..8).map(part).collect()
}

fn new(r: &mut Random, mix: &Mix) -> Vec<u8> {
    let mut t = time(r, mix.near_wrap);
    if bad(r, mix) || mix.bad == 0 && r.one_in(20) {
        match r.below(3) {
            0 => t[2] = r.pick(&[0, 61, 255]),
            1 => t[3] = r.pick(&[0, 19, 255]),
            _ => t[4] = r.pick(&[0, 5, 255]),
        }
    }
    [&[0x54], &t[..]].concat()
}

/// Some advances, then perhaps a build.
fn advances(r: &mut Random, mix: &Mix) -> Vec<Vec<u8>> {
    let all_markers = mix.timeslots.len() == 1 && mix.stage == 0;
    let count = if all_markers { r.pick(&[4, 4, 8]) } else { r.pick(&[4, 4, 4, 3, 8, 68, 72, 5]) };
    let mut all = vec![vec![0x41]; count];
    if r.one_in(2) {
        all.push(vec![0x42]);
    }
    all
}

/// A stream of `n` commands, four times as many where markers go round.
pub fn stream(seed: u64, n: usize) -> Vec<u8> {
    let mix = &MIXES[(seed % 9) as usize];
    let n = if seed % 9 == 8 { 4 * n } else { n };
    let mut r = Random::new(seed);
    let mut all: Vec<Vec<u8>> = Vec::new();
    if !r.one_in(8) {
        all.push([&[0x54], &time(&mut r, mix.near_wrap)[..]].concat());
    }
    if !r.one_in(6) {
        all.extend(stage_all(&mut r));
    }
    let weights = [mix.advance, mix.advances, mix.request, mix.stage, mix.queue, mix.build, mix.new];
    while all.len() < n {
        let mut x = r.below(weights.iter().sum());
        let which = weights.iter().position(|&w| {
            if x < w {
                true
            } else {
                x -= w;
                false
            }
        });
        match which.unwrap() {
            0 => all.push(vec![0x41]),
            1 => all.extend(advances(&mut r, mix)),
            2 => all.push(request(&mut r, mix)),
            3 => all.push(stage(&mut r, mix)),
            4 => all.push(queue(&mut r, mix)),
            5 => all.push(vec![0x42]),
            _ => all.push(new(&mut r, mix)),
        }
    }
    all.truncate(n);
    // some end with an unknown command, some with a cut one
    match r.below(8) {
        0 => all.push(vec![r.pick(&[0, 0x20, 0x45, 0x61, 0xFF]), 0x41]),
        1 => {
            if let Some(c) = all.iter().rev().find(|c| c.len() > 1).cloned() {
                let cut = r.between(1, c.len() as u64 - 1) as usize;
                all.push(c[..cut].to_vec());
            }
        }
        _ => {}
    }
    all.concat()
}
