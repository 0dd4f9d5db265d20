// Stands for src/recovery/mod.rs: only the modules and names that the built
// files look up here.

use std::time::Duration;

pub mod bandwidth;
pub mod gcongestion;
pub mod rtt;

/// Looked up by rtt.rs, for a delay that is never asked.
const GRANULARITY: Duration = Duration::from_millis(1);

/// Handed through by the modes, never looked into.
#[derive(Debug, Default)]
pub struct RecoveryStats;
