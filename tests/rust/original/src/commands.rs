//! The commands of `slotrun` (document 01, "Cases").
use crate::{FIRST_TIME, Original};
use tetra_core::TdmaTime;
use tetra_pdus::umac::pdus::mac_resource::MacResource;

pub fn hex(octets: &[u8]) -> String {
    octets.iter().map(|o| format!("{o:02x}")).collect()
}

/// The octets of a stream: hexadecimal digits, a comment behind #.
pub fn from_hex(text: &str) -> Vec<u8> {
    let lines = text.lines().map(|l| l.split('#').next().unwrap());
    let digits: Vec<u8> = lines.flat_map(|l| l.bytes()).filter(|b| !b.is_ascii_whitespace()).collect();
    let octet = |pair: &[u8]| u8::from_str_radix(std::str::from_utf8(pair).unwrap(), 16).expect("hexadecimal digits");
    digits.chunks(2).map(octet).collect()
}

pub fn number(octets: &[u8]) -> u32 {
    octets.iter().fold(0, |n, &o| n << 8 | o as u32)
}

/// How many octets stand behind a command.
pub fn operands(command: u8) -> Option<usize> {
    match command {
        0x54 => Some(5),
        0x41 | 0x42 => Some(0),
        0x52 => Some(7),
        0x53 => Some(33),
        0x51 => Some(10),
        _ => None,
    }
}

/// The time that a command of five octets names.
pub fn time(a: &[u8]) -> TdmaTime {
    TdmaTime { h: number(&a[..2]) as u16, m: a[2], f: a[3], t: a[4] }
}

/// What `slotrun` prints with the Rust inside.
pub fn run(input: &[u8]) -> String {
    let mut station = Original::new(FIRST_TIME).unwrap();
    let mut stage = [0u8; 256];
    let mut text = String::new();
    let mut rest = input;
    while let Some((&command, behind)) = rest.split_first() {
        let Some(a) = operands(command).and_then(|n| behind.get(..n)) else {
            return text + "E\n";
        };
        rest = &behind[a.len()..];
        let line = match command {
            0x54 => match Original::new(time(a)) {
                Ok(new) => {
                    station = new;
                    "T 0".to_string()
                }
                Err(n) => format!("T {n}"),
            },
            0x41 => {
                station.advance();
                "A 0".to_string()
            }
            0x52 => match station.request(a[0], a[1], a[2], number(&a[3..7])) {
                Ok((capacity, delay, marker)) => format!("R 0 {capacity} {delay} {marker}"),
                Err(n) => format!("R {n}"),
            },
            0x53 if a[0] > 7 => "S 7".to_string(),
            0x53 => {
                stage[32 * a[0] as usize..][..32].copy_from_slice(&a[1..]);
                "S 0".to_string()
            }
            0x51 => {
                let (tag, bits) = (number(&a[6..8]) as u16, number(&a[8..10]) as usize);
                let n = station.queue(a[0], a[1], number(&a[2..6]), true, MacResource::default, Some(tag), &stage, bits);
                format!("Q {n}")
            }
            _ => match station.build() {
                None => "B 0 -".to_string(),
                Some((block, tags)) => tags.iter().fold(format!("B 0 {}", hex(&block)), |line, tag| format!("{line} {tag}")),
            },
        };
        text += &line;
        text += "\n";
    }
    text
}
