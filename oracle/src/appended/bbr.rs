// Appended to bbr.rs: names for the host and the model's host.

pub use bandwidth_sampler::Answer;
pub use bandwidth_sampler::Totals;
pub use windowed_filter::WindowedFilter;
