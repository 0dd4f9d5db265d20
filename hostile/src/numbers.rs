//! Hostile numbers for the conversions and products, which refuse nothing.

use crate::reckon;
use crate::tally::Export;
use crate::tally::Fault;
use crate::trial::Trial;
use crate::values;

const EXPORTS: [Export; 7] = [
    Export::ToF32,
    Export::ToF64,
    Export::FromF32,
    Export::RoundF64,
    Export::Scale,
    Export::BandwidthMul,
    Export::BytesPerPeriod,
];

/// One case: chosen, made, compared.
pub fn case(trial: &mut Trial) {
    let export = trial.dice.pick(&EXPORTS);
    let (n, other) = (
        values::turning(&mut trial.dice),
        values::turning(&mut trial.dice),
    );
    let (bits, double) = (
        values::pattern(&mut trial.dice),
        values::double(&mut trial.dice),
    );
    compare(trial, export, (n, other), bits, double);
}

/// Each two numbers and patterns where something turns, for each call.
pub fn each(trial: &mut Trial) {
    for export in EXPORTS {
        for n in values::turns() {
            for other in values::turns() {
                compare(trial, export, (n, other), other as u32, n << 32 | other);
            }
        }
    }
}

/// Makes a call on these numbers and compares it with Rust's own casts and products.
fn compare(trial: &mut Trial, export: Export, (n, other): (u64, u64), bits: u32, double: u64) {
    let gain = f32::from_bits(bits);
    let (given, due) = match export {
        Export::ToF32 => (trial.port.u64_to_f32(n) as u64, (n as f32).to_bits() as u64),
        Export::ToF64 => (trial.port.u64_to_f64(n), (n as f64).to_bits()),
        Export::FromF32 => (trial.port.f32_to_u64(bits), gain as u64),
        Export::RoundF64 => {
            let due = f64::from_bits(double).round() as u64;
            (trial.port.f64_round_to_u64(double), due)
        }
        Export::Scale => (trial.port.scale(n, bits), reckon::scale(n, gain)),
        Export::BandwidthMul => (
            trial.port.bandwidth_mul_f32(n, bits),
            reckon::bandwidth_mul(n, gain),
        ),
        _ => (
            trial.port.bytes_per_period(n, other),
            reckon::bytes_per_period(n, other),
        ),
    };
    trial.tally.answered(export);
    if given != due {
        trial.tally.wrong(Fault::Content, || {
            format!(
                "{:?} of {} and {}, pattern {:#x}, f64 {:#x}: due {}, given {}",
                export, n, other, bits, double, due, given
            )
        });
    }
}
