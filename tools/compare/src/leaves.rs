//! hypot, min and max of f32, as the original is given them: std's own, and document 01's, which whole numbers decide.

use crate::exact;

/// Std's methods.
pub mod std_leaves {
    pub trait Leaves {
        fn leaf_hypot(self, other: f32) -> f32;
        fn leaf_min(self, other: f32) -> f32;
        fn leaf_max(self, other: f32) -> f32;
    }

    impl Leaves for f32 {
        #[inline(always)]
        fn leaf_hypot(self, other: f32) -> f32 {
            f32::hypot(self, other)
        }

        #[inline(always)]
        fn leaf_min(self, other: f32) -> f32 {
            f32::min(self, other)
        }

        #[inline(always)]
        fn leaf_max(self, other: f32) -> f32 {
            f32::max(self, other)
        }
    }
}

/// Document 01's leaves.
pub mod exact_leaves {
    pub trait Leaves {
        fn leaf_hypot(self, other: f32) -> f32;
        fn leaf_min(self, other: f32) -> f32;
        fn leaf_max(self, other: f32) -> f32;
    }

    impl Leaves for f32 {
        #[inline]
        fn leaf_hypot(self, other: f32) -> f32 {
            super::hypot(self, other)
        }

        #[inline]
        fn leaf_min(self, other: f32) -> f32 {
            super::min(self, other)
        }

        #[inline]
        fn leaf_max(self, other: f32) -> f32 {
            super::max(self, other)
        }
    }
}

/// Document 01's hypot, std's min and max.
pub mod mixed_leaves {
    pub trait Leaves {
        fn leaf_hypot(self, other: f32) -> f32;
        fn leaf_min(self, other: f32) -> f32;
        fn leaf_max(self, other: f32) -> f32;
    }

    impl Leaves for f32 {
        #[inline]
        fn leaf_hypot(self, other: f32) -> f32 {
            super::hypot(self, other)
        }

        #[inline(always)]
        fn leaf_min(self, other: f32) -> f32 {
            f32::min(self, other)
        }

        #[inline(always)]
        fn leaf_max(self, other: f32) -> f32 {
            f32::max(self, other)
        }
    }
}

/// hypot by whole numbers alone.
pub fn hypot_in_whole_numbers(x: f32, y: f32) -> f32 {
    exact::hypot_by_root(x, y, exact::Ties::Even).unwrap_or_else(|| exact::hypot_by_squares(x, y))
}

/// The same, whole numbers asked only where f64 does not suffice.
///
/// The squares are exact in f64. Its sum and root are each off by at most half a unit of the last place, so that the root found is
/// within two units of the exact one. If it lies more than 16 units from every point halfway between two f32s, both round to the
/// same f32. The range keeps clear of subnormal results and of overflow.
#[inline]
pub fn hypot(x: f32, y: f32) -> f32 {
    let (a, b) = (f64::from(x), f64::from(y));
    let root = (a * a + b * b).sqrt();
    if (1e-37..1e38).contains(&root) {
        let below_halfway = (root.to_bits() & 0x1fff_ffff) as i64 - 0x1000_0000;
        if below_halfway.abs() > 16 {
            return root as f32;
        }
    }
    hypot_in_whole_numbers(x, y)
}

/// The lesser; of unlike zeros -0; of a NaN and a number the number.
pub fn min(x: f32, y: f32) -> f32 {
    if x.is_nan() {
        y
    } else if y.is_nan() {
        x
    } else if x == 0.0 && y == 0.0 {
        f32::from_bits(x.to_bits() | y.to_bits())
    } else if x < y {
        x
    } else {
        y
    }
}

/// The greater; of unlike zeros +0; of a NaN and a number the number.
pub fn max(x: f32, y: f32) -> f32 {
    if x.is_nan() {
        y
    } else if y.is_nan() {
        x
    } else if x == 0.0 && y == 0.0 {
        f32::from_bits(x.to_bits() & y.to_bits())
    } else if x > y {
        x
    } else {
        y
    }
}
