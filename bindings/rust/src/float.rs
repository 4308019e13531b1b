//! Floats as a file has them.

/// A float by its 32 bits, which tell every NaN from every other.
#[derive(Clone, Copy, Debug, PartialEq, Eq, Hash)]
pub struct FloatBits(pub u32);

impl FloatBits {
    /// The float of these bits; a NaN keeps its sign and its payload.
    pub const fn as_f32(self) -> f32 {
        f32::from_bits(self.0)
    }
}
