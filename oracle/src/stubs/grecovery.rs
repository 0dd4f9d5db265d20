// Stands for src/recovery/gcongestion/recovery.rs: only its name is used.

pub struct GRecovery;
