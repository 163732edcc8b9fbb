//! Document 01, 'Stand-ins': what stands in the taken functions for f32's own max, powf and powi.
pub trait StandIns {
    fn max_of(self, b: f32) -> f32;
    fn powf_of(self, exponent: f32) -> f32;
    fn powi_of(self, exponent: i32) -> f32;
}

impl StandIns for f32 {
    /// a if a ≥ b, else b
    fn max_of(self, b: f32) -> f32 {
        if self >= b {
            self
        } else {
            b
        }
    }

    /// the square root, correctly rounded; the source has no other exponent
    fn powf_of(self, exponent: f32) -> f32 {
        assert!(exponent == 0.5);
        self.sqrt()
    }

    /// one product; the source has no other exponent
    fn powi_of(self, exponent: i32) -> f32 {
        assert!(exponent == 2);
        self * self
    }
}

/// On how many non-negative finite floats `powf` with 0.5, its exponent known at run time only, and `powf` with the
/// constant 0.5 round otherwise than the square root, on the machine that this runs on.
pub fn powf_differences() -> (u32, u32) {
    let half = std::hint::black_box(0.5f32);
    let mut differ = (0, 0);
    for bits in 0..f32::INFINITY.to_bits() {
        let x = f32::from_bits(bits);
        let root = x.sqrt().to_bits();
        differ.0 += (x.powf(half).to_bits() != root) as u32;
        differ.1 += (x.powf(0.5).to_bits() != root) as u32;
    }
    differ
}
