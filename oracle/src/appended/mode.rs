// Appended to mode.rs: what the attribute enum_dispatch would have made, a
// `Mode` that hands each call on to the mode it holds; and the modes that are
// stubs, which are never run.

macro_rules! handed_on {
    ($mode:expr, $held:ident => $call:expr) => {
        match $mode {
            Mode::Startup($held) => $call,
            Mode::Drain($held) => $call,
            Mode::ProbeBW($held) => $call,
            Mode::ProbeRTT($held) => $call,
            Mode::Placheolder($held) => $call,
        }
    };
}

impl ModeImpl for Mode {
    fn enter(&mut self, now: Instant, event: Option<&BBRv2CongestionEvent>, params: &Params) {
        handed_on!(self, mode => mode.enter(now, event, params))
    }

    fn leave(&mut self, now: Instant, event: Option<&BBRv2CongestionEvent>) {
        handed_on!(self, mode => mode.leave(now, event))
    }

    fn is_probing_for_bandwidth(&self) -> bool {
        handed_on!(self, mode => mode.is_probing_for_bandwidth())
    }

    fn on_congestion_event(
        self,
        prior: usize,
        time: Instant,
        acked: &[Acked],
        lost: &[Lost],
        event: &mut BBRv2CongestionEvent,
        target: usize,
        params: &Params,
        stats: &mut RecoveryStats,
        cwnd: usize,
    ) -> Mode {
        handed_on!(self, mode => mode.on_congestion_event(
            prior, time, acked, lost, event, target, params, stats, cwnd,
        ))
    }

    fn get_cwnd_limits(&self, params: &Params) -> Limits<usize> {
        handed_on!(self, mode => mode.get_cwnd_limits(params))
    }

    fn on_exit_quiescence(self, now: Instant, start: Instant, params: &Params) -> Mode {
        handed_on!(self, mode => mode.on_exit_quiescence(now, start, params))
    }
}

macro_rules! never_run {
    ($mode:ty) => {
        impl ModeImpl for $mode {
            fn enter(&mut self, _: Instant, _: Option<&BBRv2CongestionEvent>, _: &Params) {
                unreachable!()
            }

            fn leave(&mut self, _: Instant, _: Option<&BBRv2CongestionEvent>) {
                unreachable!()
            }

            fn is_probing_for_bandwidth(&self) -> bool {
                unreachable!()
            }

            fn on_congestion_event(
                self,
                _: usize,
                _: Instant,
                _: &[Acked],
                _: &[Lost],
                _: &mut BBRv2CongestionEvent,
                _: usize,
                _: &Params,
                _: &mut RecoveryStats,
                _: usize,
            ) -> Mode {
                unreachable!()
            }

            fn get_cwnd_limits(&self, _: &Params) -> Limits<usize> {
                unreachable!()
            }

            fn on_exit_quiescence(self, _: Instant, _: Instant, _: &Params) -> Mode {
                unreachable!()
            }
        }
    };
}

never_run!(Startup);
never_run!(ProbeRTT);
