//! A loss episode at beta 0.3: each round loses a packet, and the lower bound of the inflight falls
//! from a window of 1300 bytes to 910, 637 and 445.

use guovssalu::CongestionEvent;
use guovssalu::Duration;
use guovssalu::Moment;
use guovssalu::NetworkModel;
use guovssalu::Params;
use guovssalu::Refusal;
use guovssalu::Sample;

const WINDOW: u64 = 1300;

fn main() -> Result<(), Refusal> {
    let params = Params {
        beta: 0.3,
        ..Params::default()
    };
    let mut now = Moment::from_nanos(0);
    let mut model = NetworkModel::new(&params, Duration::from_millis(100), now)?;

    println!("round  inflight_lo");
    for (round, expected) in (1..).zip([910, 637, 445]) {
        lossy_round(&mut model, &params, round, now)?;
        let inflight_lo = model.inflight_lo()?;
        println!("{:5}  {:11}", round, inflight_lo);
        assert_eq!(model.round_trip_count(), round);
        assert_eq!(inflight_lo, expected);
        now = now + Duration::from_millis(100);
    }
    Ok(())
}

/// One round: a packet is sent, another is lost, and the ack of the first ends the round.
fn lossy_round(
    model: &mut NetworkModel,
    params: &Params,
    round: u64,
    now: Moment,
) -> Result<(), Refusal> {
    model.on_packet_sent(now, 0, round, WINDOW)?;

    let mut event = CongestionEvent::new(now + Duration::from_millis(50), WINDOW, WINDOW, false);
    let sample = Sample {
        total_bytes_lost: round * WINDOW,
        ..Sample::default()
    };
    model.on_congestion_event_start(&[round], &mut event, &sample, params)?;
    model.on_congestion_event_finish(&event)
}
