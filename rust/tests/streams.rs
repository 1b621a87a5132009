//! The streams of tests/oracle through this interface: the answers are those of the published Rust, of document 02 where
//! tests/oracle/w201 has one, and of document 01 in tests/oracle/differences.
use bs_sched::{Address, AddressKind, Header, Refusal, Requirement, Scheduler, Time, ffi};
use std::path::{Path, PathBuf};

fn octets(text: &str) -> Vec<u8> {
    let digits: String = text.lines().flat_map(|l| l.split('#').next().unwrap().split_whitespace()).collect();
    (0..digits.len() / 2).map(|i| u8::from_str_radix(&digits[2 * i..2 * i + 2], 16).unwrap()).collect()
}

fn number<T>(r: Result<T, Refusal>) -> u8 {
    r.err().map_or(0, Refusal::number)
}

struct Session {
    scheduler: Scheduler,
    stage: [u8; 256],
}

impl Session {
    fn new_station(&mut self, a: &[u8]) -> String {
        let made = Scheduler::new(Time { h: u16::from_be_bytes([a[0], a[1]]), m: a[2], f: a[3], t: a[4] });
        if let Ok(s) = &made {
            self.scheduler = s.clone();
        }
        format!("T {}", number(made))
    }

    fn request(&mut self, a: &[u8]) -> String {
        let address = address_of(a[2], u32::from_be_bytes([a[3], a[4], a[5], a[6]]));
        let Some(requirement) = Requirement::from_code(a[1]) else {
            return format!("R {}", no_such_code(&self.scheduler, a[0], a[1], address));
        };
        match self.scheduler.request(a[0], requirement, address) {
            Ok(g) => format!("R 0 {} {} {}", g.capacity.code().unwrap(), g.delay, g.usage_marker.unwrap_or(0)),
            Err(r) => format!("R {}", r.number()),
        }
    }

    fn stage(&mut self, a: &[u8]) -> String {
        if a[0] > 7 {
            return "S 7".to_string();
        }
        self.stage[a[0] as usize * 32..][..32].copy_from_slice(&a[1..33]);
        "S 0".to_string()
    }

    fn queue(&mut self, a: &[u8]) -> String {
        let address = address_of(a[1], u32::from_be_bytes([a[2], a[3], a[4], a[5]]));
        let tag = u16::from_be_bytes([a[6], a[7]]);
        let bits = u16::from_be_bytes([a[8], a[9]]);
        let r = self.scheduler.enqueue(a[0], address, Some(tag), Header::default(), bits, &self.stage);
        format!("Q {}", number(r))
    }

    fn build(&mut self) -> String {
        match self.scheduler.build() {
            Err(r) => format!("B {}", r.number()),
            Ok(None) => "B 0 -".to_string(),
            Ok(Some(b)) => {
                let block: String = b.block.iter().map(|o| format!("{o:02x}")).collect();
                let tags: String = b.tags.iter().map(|t| format!(" {t}")).collect();
                format!("B 0 {block}{tags}")
            }
        }
    }
}

// The safe interface has no code above 15: the library is asked, on copies.
fn no_such_code(s: &Scheduler, timeslot: u8, code: u8, address: Address) -> u8 {
    let (station, queue, store) = s.parts();
    let (mut w, mut q) = (station.to_vec(), queue.to_vec());
    let (l, n) = (w.len(), q.len());
    let (store, k, kind) = (store.as_ptr(), store.len(), address.kind as u8);
    let g = unsafe { ffi::bs_sched_request(w.as_mut_ptr(), l, q.as_mut_ptr(), n, store, k, timeslot, code, kind, address.number) };
    assert_eq!((&w[..], &q[..]), (station, queue));
    g.refusal
}

// The safe interface has no kind above 2: in its place a number that question 5 refuses too.
fn address_of(kind: u8, number: u32) -> Address {
    match kind {
        0 => Address { kind: AddressKind::Ssi, number },
        1 => Address { kind: AddressKind::Gssi, number },
        2 => Address { kind: AddressKind::Issi, number },
        _ => Address { kind: AddressKind::Ssi, number: u32::MAX },
    }
}

fn run(input: &[u8]) -> String {
    let mut session =
        Session { scheduler: Scheduler::new(Time { h: 0, m: 1, f: 1, t: 1 }).unwrap(), stage: [0; 256] };
    let mut out = String::new();
    let mut rest = input;
    while let Some((&command, operands)) = rest.split_first() {
        let need = match command {
            0x54 => 5,
            0x41 | 0x42 => 0,
            0x52 => 7,
            0x53 => 33,
            0x51 => 10,
            _ => usize::MAX,
        };
        if operands.len() < need {
            out.push_str("E\n");
            break;
        }
        let line = match command {
            0x54 => session.new_station(operands),
            0x41 => format!("A {}", number(session.scheduler.advance())),
            0x52 => session.request(operands),
            0x53 => session.stage(operands),
            0x51 => session.queue(operands),
            _ => session.build(),
        };
        out.push_str(&line);
        out.push('\n');
        rest = &operands[need..];
    }
    out
}

fn streams(folder: &Path) -> Vec<PathBuf> {
    let files = std::fs::read_dir(folder).unwrap().map(|e| e.unwrap().path());
    files.filter(|p| p.extension().is_some_and(|e| e == "hex")).collect()
}

#[test]
fn every_stream_agrees() {
    let folder = Path::new(env!("CARGO_MANIFEST_DIR")).join("../tests/oracle");
    if !folder.is_dir() {
        eprintln!("{} is not there, nothing compared", folder.display());
        return;
    }
    let mut all = streams(&folder);
    all.extend(streams(&folder.join("differences")));
    assert!(!all.is_empty());
    for stream in all {
        let input = octets(&std::fs::read_to_string(&stream).unwrap());
        let new = folder.join("w201").join(stream.with_extension("out").file_name().unwrap());
        let stored = if new.exists() { new } else { stream.with_extension("out") };
        let want = std::fs::read_to_string(stored).unwrap();
        assert_eq!(run(&input), want, "{}", stream.display());
    }
}
