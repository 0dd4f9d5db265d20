//! The replay of a trace by the whole table of refusals, with the original's whole
//! state after each call: what a comparison of traces expects.

use guovssalu_sys::table::reply::DONE;
use guovssalu_sys::table::REPLY_IN_ANSWER;

use crate::model::field::INFLIGHT_HI;
use crate::model::field::INFLIGHT_LO;
use crate::model::field::ROUND_TRIP_COUNT;
use crate::model::field::SLOT_0;
use crate::model::field::SLOT_1;
use crate::model::Call;
use crate::model::Start;
use crate::recovery::gcongestion::Host;
use crate::replies;
use crate::trace::Line;
use crate::trace::Model;
use crate::trace::Shown;
use crate::world::Step;
use crate::world::World;

pub struct ByTable {
    world: World,
    started: bool,
}

impl ByTable {
    pub fn new() -> Self {
        ByTable {
            world: World::new(),
            started: false,
        }
    }

    /// The reply to a call, which is made.
    fn make(&mut self, call: Call) -> u64 {
        self.world.answer_to(&Step::Call(call))[REPLY_IN_ANSWER]
    }
}

impl Model for ByTable {
    fn is_started(&self) -> bool {
        self.started
    }

    /// A refused start isn't made: in a trace the state stays.
    fn take(&mut self, line: &Line) -> u64 {
        match *line {
            Line::Start { time, rtt } => {
                let start = Start {
                    moment: time,
                    initial_rtt: rtt,
                    ..Host::usual_start()
                };
                let call = Call::Start(start);
                match replies::reply(&call, &self.world.state, &start) {
                    DONE => {
                        self.started = true;
                        self.make(call)
                    }
                    refusal => refusal,
                }
            }
            Line::Sent {
                time,
                in_flight,
                number,
                bytes,
            } => self.make(Call::Sent {
                moment: time,
                in_flight,
                number,
                bytes,
            }),
            Line::Event(event) => {
                self.make(Call::Record(event.record()));
                let reply = self.make(Call::Event(event.sample()));
                if reply == DONE {
                    assert_eq!(self.make(Call::Finish), DONE, "a finish is refused");
                }
                reply
            }
        }
    }

    fn shown(&self) -> Shown {
        let state = &self.world.state;
        Shown {
            round: state[ROUND_TRIP_COUNT],
            max_bw: state[SLOT_0].max(state[SLOT_1]),
            lo: state[INFLIGHT_LO],
            hi: state[INFLIGHT_HI],
        }
    }
}
