use std::convert::TryInto;

use crate::fault::Asked;
use crate::run;
use crate::table;
use crate::table::call;
use crate::table::phase;
use crate::table::state;
use crate::table::CYCLE_BYTES;
use crate::table::STATE_BYTES;
use crate::words;
use crate::Call;
use crate::Duration;
use crate::Fault;
use crate::Moment;
use crate::NetworkModel;
use crate::Params;
use crate::Refusal;

/// The phases of the probing cycle, the original's `CyclePhase`.
#[derive(Clone, Copy, Debug, PartialEq, Eq, Hash)]
pub enum Phase {
    /// No phase was entered yet.
    NotStarted = phase::NOT_STARTED as isize,
    /// Probes for more bandwidth.
    Up = phase::UP as isize,
    /// Drains what probing has queued.
    Down = phase::DOWN as isize,
    /// Sends at the estimate.
    Cruise = phase::CRUISE as isize,
    /// Fills the pipe before it probes.
    Refill = phase::REFILL as isize,
}

/// The cycle of probing for bandwidth, the original's `Cycle`: the phase entries, with the
/// original's names. In the original they are methods of the mode that owns model and cycle; here
/// they are methods of the cycle, and the model is handed in. Each changes both, or neither.
#[derive(Clone, Debug, PartialEq, Eq)]
pub struct Cycle {
    bytes: [u8; Cycle::BYTES],
}

impl Cycle {
    /// Bytes of a cycle's state.
    pub const BYTES: usize = CYCLE_BYTES;

    /// A fresh cycle at the moment `now`. It is made by a start, at whose place 2 `now` is; here it is
    /// the only argument, and a fault of it is at place 1.
    pub fn new(now: Moment) -> Result<Self, Refusal> {
        let mut cycle = Cycle {
            bytes: [0; Cycle::BYTES],
        };
        let start = Call::new(call::START, &[now.as_nanos()]).with_params(&Params::default());
        match cycle.make_alone(&start) {
            Ok(()) => Ok(cycle),
            Err(Refusal::BadArgument(fault)) => Err(Refusal::BadArgument(
                Fault::new(fault.kind(), 1).of(Asked::NewCycle),
            )),
            Err(refusal) => Err(refusal),
        }
    }

    /// The bytes of a state with this cycle and no model.
    fn alone(&self) -> [u8; STATE_BYTES] {
        let mut state = [0; STATE_BYTES];
        state[NetworkModel::BYTES..].copy_from_slice(&self.bytes);
        state
    }

    /// The bytes of its state, to be kept: the cycle's words of docs/LAYOUT.md.
    pub fn as_bytes(&self) -> &[u8; Cycle::BYTES] {
        &self.bytes
    }

    /// The cycle of bytes that were kept.
    ///
    /// # Errors
    ///
    /// `BadArgument` for another length, 2.8 at 1; `OutOfBounds` for bytes that encode no cycle. Bytes
    /// that encode a cycle with a number outside its bounds are taken, and refused by the calls.
    pub fn from_bytes(bytes: &[u8]) -> Result<Self, Refusal> {
        let bytes = bytes.try_into().map_err(|_| Refusal::WRONG_LENGTH)?;
        let cycle = Cycle { bytes };
        run(&mut cycle.alone(), &[], &mut [])?;
        Ok(cycle)
    }

    /// Makes a call on the cycle and its model.
    fn make(&mut self, model: &mut NetworkModel, call: &Call) -> Result<(), Refusal> {
        model.make_with(&mut self.bytes, call)
    }

    /// Makes a call that is given no model.
    fn make_alone(&mut self, call: &Call) -> Result<(), Refusal> {
        let mut state = self.alone();
        call.make(&mut state)?;
        self.bytes.copy_from_slice(&state[NetworkModel::BYTES..]);
        Ok(())
    }

    /// A word of the state, which is one of the cycle's.
    fn word(&self, at: usize) -> u64 {
        words::get(&self.bytes, at - table::CYCLE_IN_STATE)
    }

    fn flag(&self, at: usize) -> bool {
        words::get_flag(&self.bytes, at - table::CYCLE_IN_STATE)
    }

    fn option(&self, at: usize) -> Option<u64> {
        words::get_option(&self.bytes, at - table::CYCLE_IN_STATE)
    }
}

/// The phase entries.
impl Cycle {
    /// Enters Down.
    pub fn enter_probe_down(
        &mut self,
        model: &mut NetworkModel,
        probed_too_high: bool,
        stopped_risky_probe: bool,
        now: Moment,
        params: &Params,
    ) -> Result<(), Refusal> {
        let flags = [probed_too_high as u64, stopped_risky_probe as u64];
        let call = Call::new(
            call::ENTER_PROBE_DOWN,
            &[flags[0], flags[1], now.as_nanos()],
        );
        self.make(model, &call.with_params(params))
    }

    /// Enters Cruise.
    pub fn enter_probe_cruise(
        &mut self,
        model: &mut NetworkModel,
        now: Moment,
    ) -> Result<(), Refusal> {
        self.make(
            model,
            &Call::new(call::ENTER_PROBE_CRUISE, &[now.as_nanos()]),
        )
    }

    /// Enters Refill.
    pub fn enter_probe_refill(
        &mut self,
        model: &mut NetworkModel,
        probe_up_rounds: u64,
        now: Moment,
    ) -> Result<(), Refusal> {
        self.make(
            model,
            &Call::new(call::ENTER_PROBE_REFILL, &[probe_up_rounds, now.as_nanos()]),
        )
    }

    /// Enters Up.
    pub fn enter_probe_up(
        &mut self,
        model: &mut NetworkModel,
        now: Moment,
        cwnd: u64,
    ) -> Result<(), Refusal> {
        self.make(
            model,
            &Call::new(call::ENTER_PROBE_UP, &[now.as_nanos(), cwnd]),
        )
    }

    /// Leaves Down: the largest bandwidth advances, once a cycle.
    pub fn exit_probe_down(&mut self, model: &mut NetworkModel) -> Result<(), Refusal> {
        self.make(model, &Call::new(call::EXIT_PROBE_DOWN, &[]))
    }

    /// The slope by which Up raises inflight_hi becomes steeper. It needs no model.
    pub fn raise_inflight_high_slope(&mut self, cwnd: u64) -> Result<(), Refusal> {
        self.make_alone(&Call::new(call::RAISE_INFLIGHT_HIGH_SLOPE, &[cwnd]))
    }
}

/// The stored numbers, by the original's names of its fields.
impl Cycle {
    /// The phase.
    pub fn phase(&self) -> Phase {
        match self.word(state::PHASE) {
            phase::NOT_STARTED => Phase::NotStarted,
            phase::UP => Phase::Up,
            phase::DOWN => Phase::Down,
            phase::CRUISE => Phase::Cruise,
            _ => Phase::Refill,
        }
    }

    /// When the cycle began.
    pub fn start_time(&self) -> Moment {
        Moment::from_nanos(self.word(state::START_TIME))
    }

    /// When the phase was entered.
    pub fn phase_start_time(&self) -> Moment {
        Moment::from_nanos(self.word(state::PHASE_START_TIME))
    }

    /// The rounds in the phase.
    pub fn rounds_in_phase(&self) -> u64 {
        self.word(state::ROUNDS_IN_PHASE)
    }

    /// The rounds since the last probe.
    pub fn rounds_since_probe(&self) -> u64 {
        self.word(state::ROUNDS_SINCE_PROBE)
    }

    /// How long the cycle waits before it probes, if it is set.
    pub fn probe_wait_time(&self) -> Option<Duration> {
        self.option(state::PROBE_WAIT_TIME_SET)
            .map(Duration::from_nanos)
    }

    /// How often the slope was raised, at most 30.
    pub fn probe_up_rounds(&self) -> u64 {
        self.word(state::PROBE_UP_ROUNDS)
    }

    /// After how many bytes acked inflight_hi rises, if it is set.
    pub fn probe_up_bytes(&self) -> Option<u64> {
        self.option(state::PROBE_UP_BYTES_SET)
    }

    /// The bytes acked since inflight_hi rose.
    pub fn probe_up_acked(&self) -> u64 {
        self.word(state::PROBE_UP_ACKED)
    }

    /// Whether the application limited the sender since inflight_hi did.
    pub fn probe_up_app_limited_since_inflight_hi_limited(&self) -> bool {
        self.flag(state::PROBE_UP_APP_LIMITED_SINCE_INFLIGHT_HI_LIMITED)
    }

    /// Whether the largest bandwidth has advanced in this cycle.
    pub fn has_advanced_max_bw(&self) -> bool {
        self.flag(state::HAS_ADVANCED_MAX_BW)
    }

    /// Whether samples come from probing.
    pub fn is_sample_from_probing(&self) -> bool {
        self.flag(state::IS_SAMPLE_FROM_PROBING)
    }

    /// Whether the last cycle probed too high.
    pub fn last_cycle_probed_too_high(&self) -> bool {
        self.flag(state::LAST_CYCLE_PROBED_TOO_HIGH)
    }

    /// Whether the last cycle stopped a risky probe.
    pub fn last_cycle_stopped_risky_probe(&self) -> bool {
        self.flag(state::LAST_CYCLE_STOPPED_RISKY_PROBE)
    }
}
