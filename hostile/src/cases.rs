//! All cases, in their order.

use crate::events;
use crate::filter::Filter;
use crate::flaws;
use crate::model::Model;
use crate::numbers;
use crate::rtt::Rtt;
use crate::sends;
use crate::slope::Slope;
use crate::trial::Trial;
use crate::trips;
use crate::turns;

/// Hands in, one after the other, every number where something turns in every place.
pub fn sweep(trial: &mut Trial) {
    let mut model = Model::new();
    let sweeps = turns::SWEEPS.into_iter().chain(flaws::SWEEPS);
    for sweep in sweeps.chain(events::SWEEPS).chain(sends::SWEEPS) {
        sweep(&mut model, trial);
    }
    let mut rtt = Rtt::new();
    for sweep in trips::SWEEPS {
        sweep(&mut rtt, trial);
    }
    Filter::new().each_length(trial);
    Filter::new().each_refusal(trial);
    Slope::new().each(trial);
    numbers::each(trial);
}

/// Hands in what chance makes of good and hostile parts, until so many calls are made in all.
pub fn random(trial: &mut Trial, calls: u64) {
    let (mut model, mut rtt) = (Model::new(), Rtt::new());
    let (mut filter, mut slope) = (Filter::new(), Slope::new());
    while trial.tally.made() < calls {
        match trial.dice.below(20) {
            0..=11 => model.case(trial),
            12..=14 => filter.case(trial),
            15 => slope.case(trial),
            16 | 17 => rtt.case(trial),
            _ => numbers::case(trial),
        }
    }
}
