// Appended to bandwidth.rs: a bandwidth of any number of bits.

impl Bandwidth {
    pub const fn from_bits_per_second(bits_per_second: u64) -> Self {
        Bandwidth { bits_per_second }
    }
}
