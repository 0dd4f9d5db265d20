// Appended to bbr2.rs: names for the host.

pub use network_model::first_reduction;
pub use network_model::without_headroom;
pub use network_model::MaxBandwidth;
pub use network_model::MinRtt;
pub use network_model::Rounds;
pub use probe_bw::Host;
