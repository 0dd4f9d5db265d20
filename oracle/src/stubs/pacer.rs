// Stands for src/recovery/gcongestion/pacer.rs: nothing of it is used.
