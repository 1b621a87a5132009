// Inside the published bs_frag.rs: a fragmenter in any state, and the state of one.
use super::*;

impl BsFragger {
    pub fn door_new(resource: MacResource, sdu: BitBuffer, started: bool, tx_reporter: Option<TxReporter>) -> Self {
        BsFragger { resource, mac_hdr_is_written: started, is_fully_transmitted: false, sdu, tx_reporter }
    }

    /// Header, SDU at the bits sent, whether it has started, report.
    pub fn door_state(&self) -> (MacResource, BitBuffer, bool, Option<TxReporter>) {
        (self.resource.clone(), self.sdu.clone(), self.mac_hdr_is_written, self.tx_reporter.clone())
    }
}
