//! The order in which the Rust finishes records is watched, not assumed: every log statement looks which reports have changed, and
//! there is one between any two records.
use std::cell::RefCell;
use tetra_core::{TxReporter, TxState};

#[derive(Default)]
struct Watched {
    pending: Vec<(u16, TxReporter)>,
    finished: Vec<u16>,
}

thread_local! { static WATCHED: RefCell<Watched> = RefCell::default(); }

fn look() {
    WATCHED.with_borrow_mut(|w| {
        let before = w.finished.len();
        let finished = &mut w.finished;
        w.pending.retain(|(tag, report)| {
            let pending = report.get_state() != TxState::Transmitted;
            if !pending {
                finished.push(*tag);
            }
            pending
        });
        assert!(finished.len() <= before + 1, "two records finished between two log statements");
    })
}

/// Runs a build; the tags of the records that finish in it, in their order, leave `reports`.
pub fn finished<T>(reports: &mut Vec<(u16, TxReporter)>, build: impl FnOnce() -> T) -> (T, Vec<u16>) {
    WATCHED.set(Watched { pending: std::mem::take(reports), finished: Vec::new() });
    tracing::set_hook(Some(look));
    let built = build();
    tracing::set_hook(None);
    look();
    let watched = WATCHED.take();
    *reports = watched.pending;
    (built, watched.finished)
}
