// Appended to gcongestion/mod.rs: names for the host.

pub use bbr::WindowedFilter;
pub use bbr2::first_reduction;
pub use bbr2::without_headroom;
pub use bbr2::Host;
pub use bbr2::MaxBandwidth;
pub use bbr2::MinRtt;
pub use bbr2::Rounds;
