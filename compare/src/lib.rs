//! Helpers of the tests in `tests/`, which compare `font-types-proved` with `font-types`.

#[path = "../../tests/exact/mod.rs"]
pub mod exact;

/// Asserts that a call returns the same with both crates, where `k` names the crate:
/// `assert_same!(bits, |k| k::Fixed::from_bits(bits).round().to_bits())`.
#[macro_export]
macro_rules! assert_same {
    ($input:expr, |$k:ident| $call:expr) => {{
        #[allow(unused_imports)]
        let ours = {
            use font_types_proved as $k;
            $call
        };
        #[allow(unused_imports)]
        let theirs = {
            use font_types as $k;
            $call
        };
        assert_eq!(ours, theirs, "{:?}: {}", $input, stringify!($call));
    }};
}

/// The generator `splitmix64`. A test that draws nothing fails: its loop had no turn.
pub struct Random {
    seed: u64,
    state: u64,
}

impl Drop for Random {
    fn drop(&mut self) {
        assert_ne!(self.state, self.seed, "nothing was drawn");
    }
}

impl Random {
    pub fn new(seed: u64) -> Self {
        Self { seed, state: seed }
    }

    pub fn u64(&mut self) -> u64 {
        self.state = self.state.wrapping_add(0x9E37_79B9_7F4A_7C15);
        let z = (self.state ^ (self.state >> 30)).wrapping_mul(0xBF58_476D_1CE4_E5B9);
        let z = (z ^ (z >> 27)).wrapping_mul(0x94D0_49BB_1331_11EB);
        z ^ (z >> 31)
    }

    pub fn below(&mut self, n: u64) -> u64 {
        self.u64() % n
    }

    /// Returns a signed integer of `width` bits, of any magnitude; one in eight is `MIN` or `MAX`,
    /// and one in eight is next to a power of two.
    pub fn signed(&mut self, width: u32) -> i64 {
        let greatest = i64::MAX >> (64 - width);
        let shift = self.below(width.into());
        match self.below(16) {
            0 => greatest,
            1 => !greatest,
            2 | 3 => {
                let near = (1i64 << shift).wrapping_add(self.below(3) as i64 - 1);
                near << (64 - width) >> (64 - width)
            }
            _ => self.u64() as i64 >> (64 - width) >> shift,
        }
    }

    pub fn i32(&mut self) -> i32 {
        self.signed(32) as i32
    }
}

/// Iterates over each 4,099th 32-bit integer.
pub fn sampled() -> impl Iterator<Item = u32> {
    (0..=u32::MAX).step_by(4099)
}

/// Returns the integers next to zero, to the limits and to the powers of two.
pub fn edges(width: u32) -> Vec<i64> {
    let near = |power: u32| [-1, 0, 1].map(|near| (1i64 << power).wrapping_add(near));
    let positive = (0..width).flat_map(near);
    let edges = positive.flat_map(|n| [n, n.wrapping_neg()]);
    let mut edges: Vec<i64> = edges.map(|n| n << (64 - width) >> (64 - width)).collect();
    edges.sort_unstable();
    edges.dedup();
    edges
}

font_types_proved::record! {
    /// A record of an `hmtx` table, which the bench reads from another crate.
    #[derive(Clone, Copy)]
    pub struct Metric {
        /// The advance width.
        pub advance: u16,
        /// The left side bearing.
        pub bearing: i16,
    }
}
