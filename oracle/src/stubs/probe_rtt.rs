// Stands for src/recovery/gcongestion/bbr2/probe_rtt.rs, which is missing. A mode
// that can be made and named, and that is never run: see what is appended to
// mode.rs.

use super::mode::Cycle;
use super::network_model::BBRv2NetworkModel;

#[derive(Debug)]
pub(super) struct ProbeRTT {
    pub(super) model: BBRv2NetworkModel,
    pub(super) cycle: Cycle,
}

impl ProbeRTT {
    pub(super) fn new(model: BBRv2NetworkModel, cycle: Cycle) -> Self {
        ProbeRTT { model, cycle }
    }
}
