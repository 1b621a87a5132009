//! include/bs_sched.h and src/ffi.rs say the same: sizes, structs and functions; and the structs have the sizes and places that C gives
//! them.
use bs_sched::ffi::{self, Built, Fill, Grant, Owners, Read, SlotUsage, Written};
use bs_sched::Refusal;
use std::mem::{align_of, offset_of, size_of};

const HEADER: &str = include_str!("../../include/bs_sched.h");
const FFI: &str = include_str!("../src/ffi.rs");

#[test]
fn sizes() {
    assert_eq!((size_of::<Grant>(), align_of::<Grant>()), (4, 1));
    assert_eq!((size_of::<Built>(), align_of::<Built>()), (36, 2));
    assert_eq!((size_of::<Owners>(), align_of::<Owners>()), (16, 4));
    assert_eq!((size_of::<SlotUsage>(), align_of::<SlotUsage>()), (3, 1));
    assert_eq!((size_of::<Read>(), align_of::<Read>()), (2, 1));
    assert_eq!((size_of::<Written>(), align_of::<Written>()), (16, 8));
    assert_eq!((size_of::<Fill>(), align_of::<Fill>()), (16, 8));
}

#[test]
fn places() {
    assert_eq!(offset_of!(Built, tags), 4);
    assert_eq!(offset_of!(Owners, both), 4);
    assert_eq!(offset_of!(Written, end), 8);
    assert_eq!(offset_of!(Fill, bits), 8);
}

// The text without its comments, in one line.
fn code(text: &str) -> String {
    let mut rest = text;
    let mut out = String::new();
    while let Some((before, behind)) = rest.split_once("/*") {
        out.push_str(before);
        rest = behind.split_once("*/").unwrap().1;
    }
    out.push_str(rest);
    let lines = out.lines().map(|l| l.split("//").next().unwrap().trim());
    lines.filter(|l| !l.starts_with('#')).collect::<Vec<_>>().join(" ")
}

fn define(name: &str) -> &'static str {
    let line = HEADER.lines().find(|l| l.split_whitespace().take(2).eq(["#define", name])).unwrap();
    line.split_whitespace().nth(2).unwrap()
}

// A type of C as Rust names it: the structs by the part of their name behind bs_sched_.
fn rust_type(c: &str) -> String {
    let c = c.trim();
    if let Some(of) = c.strip_suffix('*') {
        let of = of.trim();
        return match of.strip_prefix("const ") {
            Some(of) => format!("*const {}", rust_type(of)),
            None => format!("*mut {}", rust_type(of)),
        };
    }
    match c {
        "uint8_t" => "u8".into(),
        "uint16_t" => "u16".into(),
        "uint32_t" => "u32".into(),
        "uint64_t" => "u64".into(),
        "size_t" => "usize".into(),
        _ => {
            let name = c.strip_prefix("struct bs_sched_").unwrap_or_else(|| panic!("{c}"));
            name.split('_').map(|w| w[..1].to_uppercase() + &w[1..]).collect()
        }
    }
}

// `uint16_t tags[16]` as `tags: [u16; 16]`
fn rust_field(c: &str) -> String {
    let at = c.rfind([' ', '*']).unwrap() + 1;
    let (of, name) = (rust_type(&c[..at]), &c[at..]);
    match name.split_once('[') {
        Some((name, n)) => format!("{name}: [{of}; {}]", n.trim_end_matches(']')),
        None => format!("{name}: {of}"),
    }
}

fn rust_fields(c: &str, between: char) -> Vec<String> {
    c.split(between).map(str::trim).filter(|f| !f.is_empty()).map(rust_field).collect()
}

#[test]
fn the_same_structs() {
    let (c, rust) = (code(HEADER), code(FFI));
    let mut count = 0;
    for part in c.split("struct bs_sched_").skip(1) {
        let Some((name, behind)) = part.split_once(" { ") else { continue };
        if name.contains([' ', '(']) {
            continue;
        }
        let fields = rust_fields(behind.split_once('}').unwrap().0, ';');
        let head = format!("pub struct {} {{ ", rust_type(&format!("struct bs_sched_{name}")));
        let body = rust.split_once(&head).unwrap_or_else(|| panic!("{head}")).1.split_once('}').unwrap().0;
        let theirs: Vec<_> = body.split(", ").flat_map(|f| f.trim().strip_prefix("pub ")).collect();
        assert_eq!(fields, theirs.iter().map(|f| f.trim_end_matches(',')).collect::<Vec<_>>(), "{name}");
        count += 1;
    }
    assert_eq!(count, 7);
}

#[test]
fn the_same_functions() {
    let (c, rust) = (code(HEADER), code(FFI));
    let mut count = 0;
    for statement in c.split(';').filter(|s| s.contains('(') && s.contains("bs_sched_")) {
        let (head, arguments) = statement.trim().split_once('(').unwrap();
        let head = head.rsplit(['}', '{']).next().unwrap().trim();
        let (of, name) = head.rsplit_once(' ').unwrap();
        let arguments = rust_fields(arguments.trim_end_matches(')'), ',').join(", ");
        let ours = format!("pub fn {name}({arguments}) -> {};", rust_type(of));
        let theirs = rust.replace("( ", "(").replace(", )", ")");
        assert!(theirs.contains(&ours), "{ours}");
        count += 1;
    }
    assert_eq!(count, 11);
}

#[test]
fn the_same_numbers() {
    for (name, n) in [
        ("BS_SCHED_STATION_WORDS", ffi::STATION_WORDS),
        ("BS_SCHED_RECORD_WORDS", ffi::RECORD_WORDS),
        ("BS_SCHED_QUEUE_WORDS", ffi::QUEUE_WORDS),
        ("BS_SCHED_STORE_OCTETS", ffi::STORE_OCTETS),
        ("BS_SCHED_BLOCK_OCTETS", ffi::BLOCK_OCTETS),
        ("BS_SCHED_HEADER_WORDS", ffi::HEADER_WORDS),
        ("BS_SCHED_BLOCK_HEADERS", ffi::BLOCK_HEADERS),
        ("BS_SCHED_HEADERS_WORDS", ffi::HEADERS_WORDS),
    ] {
        assert_eq!(define(name), n.to_string(), "{name}");
    }
    for (name, r) in [
        ("UNSOUND", Refusal::Unsound),
        ("LENGTHS", Refusal::Lengths),
        ("TIMESLOT", Refusal::Timeslot),
        ("REQUIREMENT", Refusal::Requirement),
        ("ADDRESS", Refusal::Address),
        ("HEADER", Refusal::Header),
        ("SDU", Refusal::Sdu),
        ("QUEUE_FULL", Refusal::QueueFull),
        ("NO_RUN", Refusal::NoRun),
        ("TOO_LATE", Refusal::TooLate),
        ("NO_ROOM", Refusal::NoRoom),
        ("MALFORMED", Refusal::Malformed),
    ] {
        assert!(code(HEADER).contains(&format!("BS_SCHED_{name} = {}", r.number())), "{name}");
    }
}

#[test]
fn the_same_version() {
    assert_eq!(define("BS_SCHED_VERSION").trim_matches('"'), env!("CARGO_PKG_VERSION"));
    let parts = ["MAJOR", "MINOR", "PATCH"].map(|p| define(&format!("BS_SCHED_VERSION_{p}")));
    assert_eq!(parts.join("."), env!("CARGO_PKG_VERSION"));
}
