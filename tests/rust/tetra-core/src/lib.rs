//! Three published files, and stand-ins for what they and the other crates name.
#![allow(dead_code, unused_imports, clippy::all)]

extern crate derives as bitcode;
extern crate derives as serde;

pub mod bitbuffer {
    include!(concat!(env!("FLOW_SRC"), "/tetra-core/src/bitbuffer.rs"));
}
pub mod tdma_time {
    include!(concat!(env!("FLOW_SRC"), "/tetra-core/src/tdma_time.rs"));
}
pub mod tx_receipt {
    include!(concat!(env!("FLOW_SRC"), "/tetra-core/src/tx_receipt.rs"));

    impl TxReporter {
        /// Whether both report on one message.
        pub fn same(&self, other: &TxReporter) -> bool {
            Arc::ptr_eq(&self.state, &other.state)
        }
    }
}

pub use bitbuffer::BitBuffer;
pub use tdma_time::TdmaTime;
pub use tx_receipt::{TxReporter, TxState};

mod stand_ins;
pub use stand_ins::*;

/// A log statement.
#[macro_export]
macro_rules! unimplemented_log { ($($arg:tt)+) => { tracing::debug!($($arg)+) }; }
