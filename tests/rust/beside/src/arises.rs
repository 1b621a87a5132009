//! Document 02, W-201, beside the Rust, which has document 01's rule. In a block where that starts fragments behind a record that wrote
//! nothing the two differ. The new block is then what the Rust builds of the queue without the records that write nothing by the new rule.
use crate::memory::Memory;
use crate::words::{header, of_queued, Cell, Words, RECORD, STARTED, WAITING};
use original::{Built, Original};

#[derive(Clone, Copy, PartialEq)]
enum Turn {
    Finishes,
    Starts,
    GoesOn,
    Nothing,
}

/// A record's turn, by its lengths alone, and the room behind it. `may`: whether it may start fragments.
fn turn(w: &Words, room: usize, may: bool) -> (Turn, usize) {
    let (bits, sent) = (w[21] as usize, w[22] as usize);
    if w[0] == STARTED {
        let end = (13 + bits - sent).next_multiple_of(8);
        return if end <= room {
            (Turn::Finishes, room - end)
        } else if room < 16 {
            (Turn::Nothing, room)
        } else {
            (Turn::GoesOn, 0)
        };
    }
    let head = header(w).compute_header_len();
    let whole = head + bits;
    if whole <= room {
        (Turn::Finishes, room - whole.next_multiple_of(8).min(room))
    } else if !may || room < 32 || room < head {
        (Turn::Nothing, room)
    } else {
        (Turn::Starts, 0)
    }
}

/// The turns of a list in an empty block: by document 01 any record may start fragments, by document 02 none behind one that wrote nothing.
fn turns(taken: &[(Words, Cell)], document: u8) -> Vec<Turn> {
    let (mut room, mut may) = (268, true);
    let mut all = Vec::new();
    for (w, _) in taken {
        let (turn, left) = turn(w, room, may || document == 1);
        room = left;
        may &= turn != Turn::Nothing;
        all.push(turn);
    }
    all
}

/// Document 01's sending starts fragments behind a record that wrote nothing.
fn arises(taken: &[(Words, Cell)]) -> bool {
    turns(taken, 1).iter().skip_while(|t| **t != Turn::Nothing).any(|t| *t == Turn::Starts)
}

/// The records of the current timeslot as the Rust merges them, waiting and started ones first.
fn taken(rust: &mut Original) -> Vec<(Words, Cell)> {
    let now = rust.sched.cur_dltime;
    rust.sched.dl_integrate_sched_elems_for_timeslot(now);
    let (first, then): (Vec<_>, Vec<_>) = queued(rust).into_iter().partition(|(w, _)| w[0] != RECORD);
    [first, then].concat()
}

fn queued(rust: &Original) -> Vec<(Words, Cell)> {
    let records = rust.sched.door_queue(rust.sched.cur_dltime.t);
    records.into_iter().map(|r| of_queued(rust, r)).collect()
}

/// Where the rule arises in the build that comes next: what it gives by document 02, and the Rust in the state that it leaves.
pub fn by_document_02(rust: &mut Original) -> Option<(Built, Original)> {
    let now = rust.sched.cur_dltime;
    if now.f == 18 {
        return None;
    }
    let taken = taken(rust);
    if !arises(&taken) {
        return None;
    }
    let turns = turns(&taken, 2);
    let mut left = Memory::of(rust);
    left.empty_queue(now.t);
    let mut writing = left.clone();
    for (record, _) in taken.iter().zip(&turns).filter(|(_, t)| **t != Turn::Nothing) {
        writing.push(now.t, record);
    }
    let mut writing = writing.to_original();
    let built = writing.build().unwrap();
    let mut begun = queued(&writing).into_iter();
    for ((mut w, cell), turn) in taken.into_iter().zip(turns) {
        match turn {
            Turn::Finishes => {}
            Turn::Starts | Turn::GoesOn => left.push(now.t, &begun.next().unwrap()),
            Turn::Nothing => {
                w[0] = w[0].max(WAITING);
                left.push(now.t, &(w, cell));
            }
        }
    }
    assert!(begun.next().is_none(), "more records are left than go on");
    Some((built, left.to_original()))
}
