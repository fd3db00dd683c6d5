//! The limits of documents 01 and 02, for messages that name a place. The archive judges every record by its own; the
//! tool's tests compare both.

/// The largest lead, either way.
pub const LEAD: i32 = 20_160;
/// Moments beside the anchor.
pub const MOMENTS: usize = 31;
/// Rules.
pub const RULES: usize = 63;
/// Spans over the same rules.
pub const QUESTIONS: usize = 8;
/// The largest least span, either way.
pub const SPAN: i32 = 2 * (MOMENTS as i32 + 1) * LEAD;
/// The bytes of a text, far above what the other limits leave room for.
pub const TEXT: usize = 1_000_000;
/// The characters of a name.
pub const NAME: usize = 60;
/// The most mistakes of a text that are shown, and the most warnings.
pub const SHOWN: usize = 20;
/// The names of a text that are kept, far above what a record has room for; those beyond are counted.
pub const KEPT: usize = 1_000;
/// Brackets within brackets.
pub const BRACKETS: usize = 16;
/// Opening hours in a week.
pub const WINDOWS: usize = 14;
