//! Calls as bytes, and both sides that carry them out.

use guovssalu::Refusal;
use guovssalu_sys::table;

use crate::inputs::Trace;
use crate::inputs::Updates;
use crate::original::Estimator;
use crate::original::Model;
use crate::original::Original;

/// The calls, and the state before them.
pub trait Calls {
    const CALL_BYTES: usize;
    const ANSWER_BYTES: usize;
    type Original: Original;

    fn state(&self) -> &[u8];
    fn calls(&self) -> &[u8];

    /// The original before them.
    fn original(&self) -> Self::Original;

    /// A run of the port.
    fn port(state: &mut [u8], calls: &[u8], answers: &mut [u8]) -> Result<(), Refusal>;

    /// How many calls there are.
    fn count(&self) -> usize {
        self.calls().len() / Self::CALL_BYTES
    }
}

impl Calls for Trace {
    const CALL_BYTES: usize = table::CALL_BYTES;
    const ANSWER_BYTES: usize = table::ANSWER_BYTES;
    type Original = Model;

    fn state(&self) -> &[u8] {
        &self.state
    }

    fn calls(&self) -> &[u8] {
        &self.calls
    }

    fn original(&self) -> Model {
        Model::new(&self.start)
    }

    fn port(state: &mut [u8], calls: &[u8], answers: &mut [u8]) -> Result<(), Refusal> {
        guovssalu::run(state, calls, answers)
    }
}

impl Calls for Updates {
    const CALL_BYTES: usize = table::RTT_CALL_BYTES;
    const ANSWER_BYTES: usize = table::RTT_ANSWER_BYTES;
    type Original = Estimator;

    fn state(&self) -> &[u8] {
        &self.state
    }

    fn calls(&self) -> &[u8] {
        &self.calls
    }

    fn original(&self) -> Estimator {
        Estimator::new(self.now)
    }

    fn port(state: &mut [u8], calls: &[u8], answers: &mut [u8]) -> Result<(), Refusal> {
        guovssalu::rtt_run(state, calls, answers)
    }
}
