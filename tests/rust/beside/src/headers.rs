//! Lone headers, whole blocks and PDUs with fill bits, drawn at random, and what is to be answered: by the Rust's `to_bitbuf`,
//! `from_bitbuf` and `get_num_fill_bits`, and by document 01's questions 5, 6, 11 and 12 where it refuses.
use crate::draw;
use crate::words::{allocation, grant, octet, of_allocation, value, word};
use original::random::Random;
use std::panic::{catch_unwind, AssertUnwindSafe};
use tetra_core::{BitBuffer, SsiType, TetraAddress};
use tetra_entities::umac::subcomp::fillbits::removal::get_num_fill_bits;
use tetra_pdus::umac::pdus::mac_end_dl::MacEndDl;
use tetra_pdus::umac::pdus::mac_resource::MacResource;

/// A header: 0 bit position, 1 PDU (0 MAC-RESOURCE, 1 MAC-FRAG, 2 MAC-END), 2 fill, 3 position of grant, 4 encryption, 5 random access,
/// 6 length code, 7 address type, 8 number, 9 event label, 10 usage marker, 11 power control or none, 12 grant octet or none, 13 to 22
/// channel allocation.
pub type Header = [u32; 24];
const FILL: usize = 2;
const POSITION: usize = 3;
const ENCRYPTION: usize = 4;
const RANDOM_ACCESS: usize = 5;
const LENGTH: usize = 6;
const ADDRESS_TYPE: usize = 7;
const NUMBER: usize = 8;
const LABEL: usize = 9;
const MARKER: usize = 10;
const POWER: usize = 11;
const GRANT: usize = 12;
const ALLOCATION: usize = 13;

/// A call: a header for a buffer, at a bit; a block; octets, from bit to bit. `spoilt` is the number for a field that is not legal, or 0.
#[derive(Debug)]
pub enum Case {
    Write { header: Header, spoilt: u8, lent: Vec<u8>, at: usize },
    Read([u8; 34]),
    Fill { octets: Vec<u8>, start: usize, end: usize },
}

#[derive(Debug, PartialEq)]
pub enum Reply {
    Refused(u8),
    /// the position behind the header, and the buffer
    Written(usize, Vec<u8>),
    Listed(Vec<Header>),
    Fill(usize),
}

/// What the Rust answers, or none where it panics.
fn unless_it_panics<T>(f: impl FnOnce() -> T) -> Option<T> {
    catch_unwind(AssertUnwindSafe(f)).ok()
}

/// The header as the Rust has it. An address type is what the Rust makes of kind, label and marker.
fn resource(h: &Header) -> MacResource {
    let kind = match h[ADDRESS_TYPE] {
        1 | 5 | 6 => Some(SsiType::Ssi),
        3 => Some(SsiType::Ussi),
        4 | 7 => Some(SsiType::Smi),
        _ => None,
    };
    MacResource {
        fill_bits: h[FILL] == 1,
        pos_of_grant: h[POSITION] as u8,
        encryption_mode: h[ENCRYPTION] as u8,
        random_access_flag: h[RANDOM_ACCESS] == 1,
        length_ind: h[LENGTH] as u8,
        addr: kind.map(|ssi_type| TetraAddress { ssi: h[NUMBER], ssi_type }),
        event_label: [2, 5, 7].contains(&h[ADDRESS_TYPE]).then_some(h[LABEL] as u16),
        usage_marker: (h[ADDRESS_TYPE] == 6).then_some(h[MARKER] as u8),
        power_control_element: value(h[POWER]).map(|p| p as u8),
        slot_granting_element: value(h[GRANT]).map(grant),
        chan_alloc_element: allocation(&h[ALLOCATION..23]),
    }
}

fn of_resource(at: usize, m: &MacResource) -> Header {
    let mut h = [0; 24];
    h[0] = at as u32;
    h[FILL] = m.fill_bits as u32;
    h[POSITION] = m.pos_of_grant as u32;
    h[ENCRYPTION] = m.encryption_mode as u32;
    h[RANDOM_ACCESS] = m.random_access_flag as u32;
    h[LENGTH] = m.length_ind as u32;
    h[ADDRESS_TYPE] = match (m.addr.map(|a| a.ssi_type), m.event_label, m.usage_marker) {
        (None, None, _) => 0,
        (None, Some(_), _) => 2,
        (Some(SsiType::Ussi), ..) => 3,
        (Some(SsiType::Smi), None, _) => 4,
        (Some(SsiType::Smi), Some(_), _) => 7,
        (Some(_), None, None) => 1,
        (Some(_), Some(_), _) => 5,
        (Some(_), None, Some(_)) => 6,
    };
    h[NUMBER] = m.addr.map_or(0, |a| a.ssi);
    h[LABEL] = m.event_label.unwrap_or(0) as u32;
    h[MARKER] = m.usage_marker.unwrap_or(0) as u32;
    h[POWER] = word(m.power_control_element);
    h[GRANT] = word(m.slot_granting_element.as_ref().map(octet));
    if let Some(c) = &m.chan_alloc_element {
        h[ALLOCATION..23].copy_from_slice(&of_allocation(c));
    }
    h
}

/// A header that the lone writer takes.
fn legal(r: &mut Random) -> Header {
    let mut h = [0; 24];
    h[LENGTH] = r.between(1, 63) as u32;
    h[ADDRESS_TYPE] = r.below(8) as u32;
    if h[ADDRESS_TYPE] == 0 {
        return h;
    }
    h[FILL] = r.below(2) as u32;
    h[POSITION] = r.below(2) as u32;
    h[RANDOM_ACCESS] = r.below(2) as u32;
    match h[ADDRESS_TYPE] {
        2 => h[ENCRYPTION] = r.below(4) as u32,
        _ => h[NUMBER] = draw::number(r),
    }
    if [2, 5, 7].contains(&h[ADDRESS_TYPE]) {
        h[LABEL] = r.below(1024) as u32;
    }
    if h[ADDRESS_TYPE] == 6 {
        h[MARKER] = r.below(64) as u32;
    }
    let mut w = [0; 23];
    draw::parts(r, &mut w);
    h[POWER] = w[9];
    h[GRANT] = word(r.one_in(2).then(|| r.next() as u8));
    h[ALLOCATION..23].copy_from_slice(&w[11..21]);
    h
}

/// One field that the lone writer refuses, and the number.
fn spoil(r: &mut Random, h: &mut Header) -> u8 {
    let alone = h[ADDRESS_TYPE] == 0;
    match r.below(8) {
        0 => h[LENGTH] = 0,
        1 => h[LENGTH] = r.between(64, 255) as u32,
        2 => h[POSITION] = r.between(2 - alone as u64, 255) as u32,
        3 if h[ADDRESS_TYPE] != 2 => h[ENCRYPTION] = r.between(1, 3) as u32,
        4 if h[ADDRESS_TYPE] == 6 => h[MARKER] = r.between(64, 255) as u32,
        5 => h[POWER] = if alone { r.between(1, 16) as u32 } else { r.between(17, 256) as u32 },
        6 if h[ALLOCATION] == 1 => match r.below(3) {
            0 => h[ALLOCATION + 3] = 0,
            1 => h[ALLOCATION + 6] = r.between(4096, 65535) as u32,
            _ => h[ALLOCATION + 9] = if h[ALLOCATION + 9] == 0 { 2 } else { 0 },
        },
        _ if ![0, 2].contains(&h[ADDRESS_TYPE]) => {
            h[NUMBER] = 1 << 24;
            return 5;
        }
        _ => h[LENGTH] = 0,
    }
    6
}

fn write_case(r: &mut Random) -> Case {
    let mut header = legal(r);
    let spoilt = if r.one_in(4) { spoil(r, &mut header) } else { 0 };
    let mut lent = vec![0; r.between(0, 24) as usize];
    r.fill(&mut lent);
    let at = (r.below(8 * lent.len() as u64 + 1) / r.between(1, 4)) as usize;
    Case::Write { header, spoilt, lent, at }
}

/// What the header writer answers, and under what it is counted.
fn written(header: &Header, spoilt: u8, lent: &[u8], at: usize) -> (Reply, &'static str) {
    let rust = unless_it_panics(|| {
        let mut to = BitBuffer::from_bytes(lent);
        to.seek(at);
        resource(header).to_bitbuf(&mut to);
        (to.get_pos(), to.into_bytes())
    });
    match rust {
        Some(_) if spoilt != 0 => (Reply::Refused(spoilt), "headers not legal that the Rust writes"),
        None if spoilt != 0 => (Reply::Refused(spoilt), "headers not legal at which the Rust panics"),
        Some((end, octets)) => (Reply::Written(end, octets), "headers written"),
        None => {
            assert!(at + resource(header).compute_header_len() > 8 * lent.len(), "the Rust panics at {header:?}");
            (Reply::Refused(11), "headers written")
        }
    }
}

/// The PDU at a position of a block by the Rust's reader of headers, with the position behind the header; or why it has none.
fn rust_reads(block: &[u8], at: usize) -> Result<(Header, usize), &'static str> {
    let mut buf = BitBuffer::from_bytes(block);
    buf.set_raw_end(268);
    buf.seek(at);
    let kind = buf.peek_bits(3).unwrap();
    let read = unless_it_panics(|| match kind {
        0 | 1 => MacResource::from_bitbuf(&mut buf).map(|m| of_resource(at, &m)),
        3 => MacEndDl::from_bitbuf(&mut buf).map(|e| {
            let mut h = [0; 24];
            h[0] = at as u32;
            h[1] = 2;
            h[FILL] = e.fill_bits as u32;
            h[POSITION] = e.pos_of_grant as u32;
            h[LENGTH] = e.length_ind as u32;
            h[GRANT] = word(e.slot_granting_element.as_ref().map(octet));
            if let Some(c) = &e.chan_alloc_element {
                h[ALLOCATION..23].copy_from_slice(&of_allocation(c));
            }
            h
        }),
        // the Rust has no reader of MAC-FRAG: its two fields are read here
        2 => {
            let mut h = [0; 24];
            h[0] = at as u32;
            h[1] = 1;
            h[FILL] = buf.peek_bits(4).unwrap() as u32 & 1;
            Ok(h)
        }
        _ => unreachable!("a type that neither has"),
    });
    match read {
        None => Err("blocks with a header at which the Rust panics"),
        Some(Err(_)) => Err("blocks with a header that ends behind them"),
        Some(Ok(h)) => Ok((h, buf.get_pos())),
    }
}

/// The first thing of question 12 that does not hold of what the Rust reads at a position, or none.
fn objection(h: &Header, behind: usize, block: &[u8]) -> Option<&'static str> {
    let (at, length) = (h[0] as usize, h[LENGTH] as usize);
    let null = h[1] == 0 && h[ADDRESS_TYPE] == 0;
    let end = at + 8 * length;
    if h[1] == 1 {
        None
    } else if null && block[at / 8] & 0x3e != 0 {
        Some("blocks with a null and another field")
    } else if h[1] == 0 && ![0, 2].contains(&h[ADDRESS_TYPE]) && h[ENCRYPTION] != 0 {
        Some("blocks with encryption and an address")
    } else if h[1] == 2 && (h[GRANT] != 0 || h[ALLOCATION] != 0) {
        Some("blocks with a flag in a MAC-END")
    } else if length == 63 && h[1] == 0 && !null {
        None
    } else if !(2..=34).contains(&length) {
        Some("blocks with another length code")
    } else if end > 268 {
        Some("blocks with a PDU that ends behind them")
    } else if behind > if end + 8 > 268 { 268 } else { end } {
        Some("blocks with a header longer than its PDU")
    } else {
        None
    }
}

/// A block: some PDUs that fit, then mostly a null PDU or a MAC-FRAG, and anything behind; or bits of any kind.
fn block(r: &mut Random) -> [u8; 34] {
    let mut octets = [0; 34];
    if r.one_in(2) {
        r.fill(&mut octets);
    }
    let mut buf = BitBuffer::from_bytes(&octets);
    let mut at = 0;
    while at + 100 <= 268 && !r.one_in(6) {
        let mut h = legal(r);
        let least = resource(&h).compute_header_len().div_ceil(8);
        let most = (268 - at) / 8;
        h[LENGTH] = match r.below(12) {
            0 => r.pick(&[0, 1, 35, 62, 63]),
            1 => least as u32 - 1,
            _ => r.between(least as u64, most as u64) as u32,
        };
        let spoilt = r.one_in(12);
        buf.seek(at);
        if r.one_in(8) {
            let flags = if spoilt { r.below(4) } else { 0 };
            buf.write_bits(0b011 << 10 | r.below(4) << 8 | (h[LENGTH] as u64) << 2 | flags, 13);
        } else if unless_it_panics(|| resource(&h).to_bitbuf(&mut buf)).is_some() && spoilt {
            // one bit of the header is turned
            let bit = at + r.below(76.min(268 - at as u64)) as usize;
            buf.seek(bit);
            let turned = 1 - buf.peek_bits(1).unwrap();
            buf.write_bits(turned, 1);
        }
        at += 8 * (h[LENGTH] as usize).max(2);
    }
    if at + 16 <= 268 && !r.one_in(8) {
        buf.seek(at);
        let last = if r.one_in(20) { r.below(1 << 14) } else { r.pick(&[0x0010, 0x0010, 0x4000, 0x5000]) };
        buf.write_bits(last, 16);
    }
    octets.copy_from_slice(&buf.into_bytes());
    if !r.one_in(20) {
        octets[33] &= 0xf0;
    }
    octets
}

/// The headers of a block, by the Rust's readers and document 01's question 12; or what stands against it.
fn expected(block: &[u8; 34]) -> Result<Vec<Header>, &'static str> {
    if block[33] & 15 != 0 {
        return Err("blocks with one of the last four bits set");
    }
    let mut headers = Vec::new();
    let mut at = 0;
    while at + 16 <= 268 {
        if block[at / 8] >> 7 == 1 {
            return Err("blocks with a PDU of another type");
        }
        let (h, behind) = rust_reads(block, at)?;
        if let Some(against) = objection(&h, behind, block) {
            return Err(against);
        }
        headers.push(h);
        if h[1] == 1 || h[1] == 0 && (h[ADDRESS_TYPE] == 0 || h[LENGTH] == 63) {
            break;
        }
        at += 8 * h[LENGTH] as usize;
    }
    Ok(headers)
}

/// What the block reader answers, and under what it is counted.
fn listed(block: &[u8; 34]) -> (Reply, &'static str) {
    match expected(block) {
        Ok(headers) => (Reply::Listed(headers), "blocks read"),
        Err(against) => (Reply::Refused(12), against),
    }
}

fn fill_case(r: &mut Random) -> Case {
    let mut octets = vec![0; r.below(40) as usize];
    if !r.one_in(4) {
        r.fill(&mut octets);
    }
    let bits = 8 * octets.len();
    let clear = r.below(bits as u64 + 1) as usize;
    for bit in bits - clear..bits {
        octets[bit / 8] &= !(0x80 >> (bit % 8));
    }
    let (start, end) = (r.below(bits as u64 + 1) as usize, r.below(bits as u64 + 10) as usize);
    Case::Fill { octets, start, end }
}

/// What fill removal answers. Past the buffer the Rust panics, or says 0 where the start is not before the end.
fn fill(octets: &[u8], start: usize, end: usize) -> Reply {
    let rust = unless_it_panics(|| {
        let mut buf = BitBuffer::from_bytes(octets);
        buf.seek(start);
        get_num_fill_bits(&buf, end, true)
    });
    if end > 8 * octets.len() {
        Reply::Refused(11)
    } else {
        Reply::Fill(rust.unwrap())
    }
}

impl Case {
    pub fn draw(r: &mut Random) -> Case {
        match r.below(3) {
            0 => write_case(r),
            1 => Case::Read(block(r)),
            _ => fill_case(r),
        }
    }

    /// What is to be answered, and under what it is counted.
    pub fn reply(&self) -> (Reply, &'static str) {
        match self {
            Case::Write { header, spoilt, lent, at } => written(header, *spoilt, lent, *at),
            Case::Read(block) => listed(block),
            Case::Fill { octets, start, end } => (fill(octets, *start, *end), "fill removals"),
        }
    }
}
