//! What the streams cannot ask: headers, acknowledgements, owners and usage, and buffers of wrong length or content.
use bs_sched::{Address, AddressKind, ChanAlloc, Header, Owners, Refusal, Requirement, Scheduler, Time, Usage, ffi};

const FIRST: Time = Time { h: 0, m: 1, f: 1, t: 1 };

fn ssi(number: u32) -> Address {
    Address { kind: AddressKind::Ssi, number }
}

fn allocation() -> ChanAlloc {
    ChanAlloc {
        alloc_type: 0,
        ts_assigned: 0b0100,
        ul_dl_assigned: 3,
        clch_permission: false,
        cell_change_flag: false,
        carrier_num: 1000,
        mon_pattern: 0,
        frame18_mon_pattern: Some(1),
    }
}

fn hex(block: &[u8]) -> String {
    block.iter().map(|o| format!("{o:02x}")).collect()
}

#[test]
fn two_channel_allocations_stay_on_their_timeslot() {
    let mut s = Scheduler::new(FIRST).unwrap();
    let header = Header { chan_alloc_element: Some(allocation()), ..Header::default() };
    s.enqueue(1, ssi(1), None, header, 0, &[]).unwrap();
    s.enqueue(1, ssi(2), None, header, 0, &[]).unwrap();
    let block = s.build().unwrap().unwrap().block;
    assert!(hex(&block).starts_with("20490000012261f40620490000022261f4060010"), "{}", hex(&block));
    assert_eq!(s.build(), Ok(None));
}

#[test]
fn an_acknowledgement_is_a_flag() {
    let mut s = Scheduler::new(FIRST).unwrap();
    s.enqueue_ack(1, ssi(7)).unwrap();
    let block = s.build().unwrap().unwrap().block;
    assert!(hex(&block).starts_with("2231000007100010"), "{}", hex(&block));
}

#[test]
fn owners_and_usage() {
    let mut s = Scheduler::new(FIRST).unwrap();
    let at = |f| Time { f, ..FIRST };
    s.request(1, Requirement::Req1Subslot, ssi(5)).unwrap();
    assert_eq!(s.slot_owner(FIRST), Ok(Owners { both: None, first: Some(5), second: None }));
    assert_eq!(s.usage(FIRST), Ok(Usage::CommonAndAssigned));
    s.request(1, Requirement::Req1Subslot, ssi(6)).unwrap();
    assert_eq!(s.slot_owner(FIRST), Ok(Owners { both: None, first: Some(5), second: Some(6) }));
    assert_eq!(s.usage(FIRST), Ok(Usage::AssignedOnly));
    assert_eq!(s.request(1, Requirement::Req2Slots, ssi(9)).unwrap().usage_marker, Some(4));
    assert_eq!(s.slot_owner(at(2)), Ok(Owners { both: Some(9), first: Some(9), second: Some(9) }));
    assert_eq!(s.usage(at(2)), Ok(Usage::Traffic(4)));
    assert_eq!(s.usage(at(4)), Ok(Usage::CommonOnly));
    assert_eq!(s.usage(at(19)), Err(Refusal::Unsound));
}

#[test]
fn illegal_headers() {
    let mut s = Scheduler::new(FIRST).unwrap();
    let before = s.parts().1.to_vec();
    let mut refused = |header| assert_eq!(s.enqueue(1, ssi(1), None, header, 0, &[]), Err(Refusal::Header));
    refused(Header { pos_of_grant: 2, ..Header::default() });
    refused(Header { usage_marker: Some(64), ..Header::default() });
    refused(Header { power_control_element: Some(16), ..Header::default() });
    let with = |c| Header { chan_alloc_element: Some(c), ..Header::default() };
    refused(with(ChanAlloc { ul_dl_assigned: 0, ..allocation() }));
    refused(with(ChanAlloc { frame18_mon_pattern: None, ..allocation() }));
    refused(with(ChanAlloc { mon_pattern: 1, ..allocation() }));
    refused(with(ChanAlloc { carrier_num: 4096, ..allocation() }));
    assert_eq!(s.enqueue(1, ssi(1), None, Header::default(), 9, &[0]), Err(Refusal::Sdu));
    assert_eq!(s.parts().1, before);
}

// The safe interface has no label, encryption or grant in an offered header, and no word that is too wide; the library refuses them.
#[test]
fn illegal_words() {
    let offer = |record: &[u32]| {
        let mut station = [0; ffi::STATION_WORDS];
        let mut queue = vec![0; ffi::QUEUE_WORDS];
        let mut store = vec![0; ffi::STORE_OCTETS];
        let (s, q, o) = (station.as_mut_ptr(), queue.as_mut_ptr(), store.as_mut_ptr());
        let (l, n, k) = (station.len(), queue.len(), store.len());
        assert_eq!(unsafe { ffi::bs_sched_new(s, l, 0, 1, 1, 1) }, 0);
        let sdu = [0u8; 1];
        unsafe { ffi::bs_sched_enqueue(s, l, q, n, o, k, 1, record.as_ptr(), record.len(), sdu.as_ptr(), sdu.len()) }
    };
    let plain = Header::default().record(ssi(1), Some(9), 8);
    let alloc = Header { chan_alloc_element: Some(allocation()), ..Header::default() }.record(ssi(1), None, 8);
    let with = |mut record: [u32; ffi::RECORD_WORDS], place: usize, value: u32| {
        record[place] = value;
        offer(&record)
    };
    assert_eq!((offer(&plain), offer(&alloc)), (0, 0));
    for (place, value) in [(5, 1), (6, 2), (7, 6), (10, 1)] {
        assert_eq!(with(plain, place, value), 6, "word {place} is {value}");
    }
    assert_eq!(with(alloc, 18, 1), 6);
    assert_eq!(with(plain, 1, 3), 5);
    // a word that is too wide: the number of its question; kind and bits sent do not count
    for (place, value, number) in
        [(1, 256, 5), (2, 1 << 24, 5), (3, 65537, 6), (4, 256, 6), (10, 257, 6), (11, 2, 6), (12, 1, 6), (21, 65544, 7), (0, 5, 0), (22, u32::MAX, 0)]
    {
        assert_eq!(with(plain, place, value), number, "word {place} is {value}");
    }
    assert_eq!((offer(&plain[..22]), offer(&[])), (2, 2));
}

#[test]
fn a_second_half_without_a_first() {
    let s = Scheduler::new(FIRST).unwrap();
    let mut station: [u32; ffi::STATION_WORDS] = s.parts().0.try_into().unwrap();
    station[5] = 4;
    let t = Scheduler::from_parts(station, s.parts().1.to_vec(), s.parts().2.to_vec());
    assert_eq!(t.usage(FIRST), Err(Refusal::Unsound));
    assert_eq!(t.slot_owner(FIRST), Err(Refusal::Unsound));
}

#[test]
fn wrong_lengths() {
    let s = Scheduler::new(FIRST).unwrap();
    let (station, queue, store) = s.parts();
    let station: [u32; ffi::STATION_WORDS] = station.try_into().unwrap();
    for (q, o) in [(0, 0), (queue.len() - 1, store.len()), (queue.len(), store.len() - 1), (queue.len() + 23, store.len())] {
        let mut t = Scheduler::from_parts(station, vec![0; q], vec![0; o]);
        assert_eq!(t.request(1, Requirement::Req1Slot, ssi(1)), Err(Refusal::Lengths));
        assert_eq!(t.enqueue_ack(1, ssi(1)), Err(Refusal::Lengths));
        assert_eq!(t.enqueue(1, ssi(1), None, Header::default(), 0, &[]), Err(Refusal::Lengths));
        assert_eq!(t.build(), Err(Refusal::Lengths));
    }
    let mut words = vec![0u32; 227];
    assert_eq!(unsafe { ffi::bs_sched_advance(words.as_mut_ptr(), words.len()) }, 2);
    assert_eq!(unsafe { ffi::bs_sched_new(words.as_mut_ptr(), words.len(), 0, 1, 1, 1) }, 2);
}

// The safe interface has no kind of address above 2; the library refuses one.
#[test]
fn no_such_kind() {
    let mut station = [0; ffi::STATION_WORDS];
    let mut queue = vec![0; ffi::QUEUE_WORDS];
    let store = vec![0; ffi::STORE_OCTETS];
    assert_eq!(unsafe { ffi::bs_sched_new(station.as_mut_ptr(), station.len(), 0, 1, 1, 1) }, 0);
    for kind in 3..=255 {
        let (s, q) = (station.as_mut_ptr(), queue.as_mut_ptr());
        let (l, n) = (station.len(), queue.len());
        let asked = unsafe { ffi::bs_sched_request(s, l, q, n, store.as_ptr(), store.len(), 1, 1, kind, 1) };
        let acked = unsafe { ffi::bs_sched_enqueue_ack(s, l, q, n, store.as_ptr(), store.len(), 1, kind, 1) };
        assert_eq!((asked.refusal, acked), (5, 5));
    }
    assert!(queue.iter().all(|w| *w == 0));
}

// Any word changed: each call is refused and alters nothing, or it is done and the memory is sound still.
#[test]
fn any_content() {
    let mut busy = Scheduler::new(FIRST).unwrap();
    busy.enqueue(1, ssi(1), Some(3), Header { chan_alloc_element: Some(allocation()), ..Header::default() }, 600, &[0xa5; 75]).unwrap();
    busy.request(1, Requirement::Req2Slots, ssi(2)).unwrap();
    busy.enqueue_ack(2, ssi(3)).unwrap();
    busy.build().unwrap();
    let (station, queue, store) = busy.parts();
    let (station, queue, store) = (station.to_vec(), queue.to_vec(), store.to_vec());
    let mut refused = 0;
    for place in 0..station.len() + 120 {
        for value in [0, 1, 2, 5, 63, 64, 255, 256, 257, 65535, 65536, 65537, 1 << 24, (1 << 24) + 1, u32::MAX] {
            let (mut s, mut q) = (station.clone(), queue.clone());
            match place.checked_sub(station.len()) {
                None => s[place] = value,
                Some(i) => q[i] = value,
            }
            let mut t = Scheduler::from_parts(s.clone().try_into().unwrap(), q.clone(), store.clone());
            let r = t.request(1, Requirement::Req1Slot, ssi(4));
            if r.is_err() {
                assert_eq!(t.parts(), (&s[..], &q[..], &store[..]));
                refused += 1;
            } else {
                assert_eq!(t.build().map(|_| ()), Ok(()), "word {place} is {value}");
                assert_eq!(t.advance(), Ok(()), "word {place} is {value}");
            }
        }
    }
    assert!(refused > 1000, "{refused}");
}
