//! Whole numbers and minus infinity in a machine number: `i32` for lists, `f32` for dense rows.
//!
//! An `f32` holds every whole number up to 16,777,216 exactly and has an infinity, and every processor has a vector
//! instruction for the larger of two. Values stay above −2,600,000: a longest walk has fewer than 32 arcs of at least
//! −40,320 and needs at most one by the objective.

pub trait Number: Copy + PartialOrd {
    /// Minus infinity.
    const BOT: Self;
    /// Above every value.
    const TOP: Self;
    const ZERO: Self;
    /// A coefficient of a record, blank as minus infinity.
    fn of(coefficient: i32) -> Self;
    fn whole(self) -> i32;
    fn is_bot(self) -> bool;
    /// A difference; `other` is finite.
    fn minus(self, other: Self) -> Self;
}

/// Sums with minus infinity stay far below this, sums of values far above.
const HALF: i32 = -500_000_000;

impl Number for i32 {
    const BOT: i32 = -1_000_000_000;
    const TOP: i32 = 1_000_000_000;
    const ZERO: i32 = 0;

    #[inline(always)]
    fn of(coefficient: i32) -> i32 {
        if coefficient == i32::MIN {
            Self::BOT
        } else {
            coefficient
        }
    }

    #[inline(always)]
    fn whole(self) -> i32 {
        self
    }

    #[inline(always)]
    fn is_bot(self) -> bool {
        self < HALF
    }

    #[inline(always)]
    fn minus(self, other: i32) -> i32 {
        if self < HALF {
            Self::BOT
        } else {
            self - other
        }
    }
}

impl Number for f32 {
    const BOT: f32 = f32::NEG_INFINITY;
    const TOP: f32 = f32::INFINITY;
    const ZERO: f32 = 0.0;

    #[inline(always)]
    fn of(coefficient: i32) -> f32 {
        if coefficient == i32::MIN {
            Self::BOT
        } else {
            coefficient as f32
        }
    }

    #[inline(always)]
    fn whole(self) -> i32 {
        self as i32
    }

    #[inline(always)]
    fn is_bot(self) -> bool {
        self == Self::BOT
    }

    #[inline(always)]
    fn minus(self, other: f32) -> f32 {
        self - other
    }
}
