//! The archive's calls.

use guovssalu_sys as sys;

use crate::foreign::Port;

/// The port: the calls of the archive.
pub const PORT: Port = Port {
    u64_to_f32: sys::guovssalu_u64_to_f32,
    u64_to_f64: sys::guovssalu_u64_to_f64,
    f32_to_u64: sys::guovssalu_f32_to_u64,
    f64_round_to_u64: sys::guovssalu_f64_round_to_u64,
    scale: sys::guovssalu_scale,
    bandwidth_mul_f32: sys::guovssalu_bandwidth_mul_f32,
    to_bytes_per_period: sys::guovssalu_to_bytes_per_period,
    raise_inflight_high_slope: sys::guovssalu_raise_inflight_high_slope,
    filter_run: sys::guovssalu_filter_run,
    run: sys::guovssalu_run,
    run_lists: sys::guovssalu_run_lists,
    rtt_run: sys::guovssalu_rtt_run,
};
