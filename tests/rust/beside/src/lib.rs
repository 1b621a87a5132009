//! The Rust and libbs_sched_c.a in one state: any sound memory, laid out as words (include/bs_sched.h), is put into the Rust, both are
//! called alike, and what they answer and leave is compared, word by word.
pub mod arises;
pub mod compare;
pub mod draw;
#[allow(dead_code)]
#[path = "../../../../rust/src/ffi.rs"]
mod ffi;
pub mod headers;
pub mod memory;
pub mod words;
