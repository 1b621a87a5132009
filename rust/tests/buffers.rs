//! The block reader, the header writer and fill removal.
use bs_sched::{
    Address, AddressKind, AirAddress, ChanAlloc, Header, PduHeader, PlacedHeader, Refusal, Requirement, ResourceHeader, Scheduler, Time, ffi,
    fill_bits, read_block, write_header,
};

fn allocation(pattern: u8) -> ChanAlloc {
    ChanAlloc {
        alloc_type: 2,
        ts_assigned: 0b0100,
        ul_dl_assigned: 3,
        clch_permission: true,
        cell_change_flag: false,
        carrier_num: 1000,
        mon_pattern: pattern,
        frame18_mon_pattern: (pattern == 0).then_some(1),
    }
}

// Headers of every address type, with and without elements.
fn headers() -> Vec<ResourceHeader> {
    let addresses = [
        AirAddress::Ssi(1),
        AirAddress::EventLabel(1023),
        AirAddress::Ussi(2),
        AirAddress::Smi(0xff_ffff),
        AirAddress::SsiEventLabel(3, 5),
        AirAddress::SsiUsageMarker(4, 62),
        AirAddress::SmiEventLabel(6, 7),
    ];
    let mut all = vec![ResourceHeader { length_ind: 2, ..ResourceHeader::new(AirAddress::Null) }];
    for (i, a) in addresses.into_iter().enumerate() {
        let plain = ResourceHeader { length_ind: 12, ..ResourceHeader::new(a) };
        all.push(plain);
        all.push(ResourceHeader {
            fill_bits: true,
            pos_of_grant: 1,
            random_access_flag: true,
            power_control_element: Some(15),
            slot_granting_element: Some(0xff),
            chan_alloc_element: Some(allocation(i as u8 % 4)),
            ..plain
        });
    }
    all
}

#[test]
fn what_is_written_is_read() {
    let null = headers()[0];
    for h in headers() {
        let mut block = [0; 34];
        let end = write_header(&mut block, 0, &h).unwrap();
        assert!((16..=92).contains(&end), "{h:?}");
        if h != null {
            write_header(&mut block, 8 * 12, &null).unwrap();
        }
        assert_eq!(read_block(&block).unwrap()[0], PlacedHeader { at: 0, header: PduHeader::Resource(h) });
    }
}

#[test]
fn what_is_read_can_be_written() {
    let ssi = |number| Address { kind: AddressKind::Ssi, number };
    let mut s = Scheduler::new(Time { h: 0, m: 1, f: 1, t: 1 }).unwrap();
    s.request(1, Requirement::Req3Slots, ssi(1)).unwrap();
    s.enqueue_ack(1, ssi(2)).unwrap();
    s.enqueue(1, ssi(3), None, Header { chan_alloc_element: Some(allocation(0)), ..Header::default() }, 300, &[0x5a; 38]).unwrap();
    let mut seen = 0;
    while let Some(built) = s.build().unwrap() {
        for p in read_block(&built.block).unwrap() {
            if let PduHeader::Resource(h) = p.header {
                let mut again = built.block;
                write_header(&mut again, p.at.into(), &h).unwrap();
                assert_eq!(again, built.block);
            }
            seen += 1;
        }
    }
    assert_eq!(seen, 5, "three MAC-RESOURCE in the first block, the last with code 63, then a MAC-END and a null");
}

#[test]
fn refused_reads_alter_nothing() {
    let read = |block: &[u8], n: usize| {
        let mut words = vec![7; n];
        let r = unsafe { ffi::bs_sched_read_block(block.as_ptr(), block.len(), words.as_mut_ptr(), words.len()) };
        assert!(r.refusal == 0 || (r.count == 0 && words.iter().all(|w| *w == 7)));
        (r.refusal, words)
    };
    let mut null = [0; 34];
    null[1] = 0x10;
    let (n, words) = read(&null, 384);
    assert_eq!((n, words[6]), (0, 2));
    assert!(words[7..].iter().all(|w| *w == 0));
    for n in [0, 1, 383, 385] {
        assert_eq!(read(&null, n).0, 2);
        assert_eq!(read(&[0xff; 34], n).0, 2);
    }
    for n in [0, 33] {
        assert_eq!(read(&null[..n], 384).0, 2);
    }
    assert_eq!(read(&[0; 34], 384).0, 12);
    assert_eq!(read(&[0xff; 34], 384).0, 12);
    null[33] = 1;
    assert_eq!(read(&null, 384).0, 12);
}

#[test]
fn refused_writes_alter_nothing() {
    let write = |at: u64, words: &[u32]| {
        let mut buf = [0xa5u8; 12];
        let r = unsafe { ffi::bs_sched_write_header(buf.as_mut_ptr(), buf.len(), at, words.as_ptr(), words.len()) };
        assert!(r.refusal == 0 || (r.end == 0 && buf == [0xa5; 12]));
        (r.refusal, r.end)
    };
    let mut w = [0u32; ffi::HEADER_WORDS];
    (w[6], w[7], w[8]) = (6, 1, 5);
    assert_eq!(write(0, &w), (0, 43));
    assert_eq!(write(53, &w), (0, 96));
    assert_eq!(write(54, &w), (11, 0));
    assert_eq!(write(u64::MAX, &w), (11, 0));
    assert_eq!(write(0, &w[..23]), (2, 0));
    assert_eq!(write(0, &[]), (2, 0));
    let with = |place: usize, value: u32| {
        let mut v = w;
        v[place] = value;
        write(0, &v).0
    };
    assert_eq!(with(0, u32::MAX), 0, "the position does not count");
    assert_eq!(with(8, 1 << 24), 5);
    for (place, value) in [(1, 1), (1, 2), (2, 2), (2, 256), (4, 1), (6, 0), (6, 64), (7, 8), (7, 3 << 8), (9, 1), (10, 1)] {
        assert_eq!(with(place, value), 6, "word {place} is {value}");
    }
    for (place, value) in [(11, 17), (12, 257), (13, 1), (13, 2), (14, 1), (22, 1), (23, 1)] {
        assert_eq!(with(place, value), 6, "word {place} is {value}");
    }
    assert_eq!(with(11, 16), 0);
    assert_eq!(with(12, 256), 0);
}

#[test]
fn fill() {
    assert_eq!(fill_bits(&[], 0, 0), Ok(0));
    assert_eq!(fill_bits(&[0x80], 0, 8), Ok(8));
    assert_eq!(fill_bits(&[0x80], 1, 8), Ok(0));
    assert_eq!(fill_bits(&[0x80], 9, 8), Ok(0));
    assert_eq!(fill_bits(&[0x80], 0, u64::MAX), Err(Refusal::NoRoom));
    let mut long = vec![0; 100_000];
    assert_eq!(fill_bits(&long, 0, 800_000), Ok(0));
    long[0] = 1;
    assert_eq!(fill_bits(&long, 0, 800_000), Ok(799_993));
}
