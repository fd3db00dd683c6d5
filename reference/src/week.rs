//! `span_first_open` of `capi/span.h` without proofs, from document 02, 2.8. It stands in for the archive in the outside
//! tests.

const OFFSET: i64 = 1 << 31;
const WEEK: u64 = 10_080;
const MOST_WINDOWS: usize = 14;
const LIMIT: i64 = 6_000_000;

/// The refusal, 0 for never, or 2³² × the minute's offset number.
pub fn first_open(week: &[u64], minute: u64) -> u64 {
    let Some(z) = i64::try_from(minute).ok().map(|number| number - OFFSET).filter(|z| z.abs() <= LIMIT) else {
        return 19;
    };
    if !week.len().is_multiple_of(2) || week.len() / 2 > MOST_WINDOWS {
        return 19;
    }
    // Openings and closings ascend, a closing strictly, to the end of the week.
    let mut last = 0;
    for window in week.chunks(2) {
        if window[0] < last || window[1] <= window[0] || window[1] > WEEK {
            return 19;
        }
        last = window[1];
    }
    if week.is_empty() {
        return 0;
    }
    let within = z.rem_euclid(WEEK as i64) as u64;
    let ahead = match week.chunks(2).find(|window| within < window[1]) {
        Some(window) => window[0].saturating_sub(within),
        None => WEEK - within + week[0],
    };
    (minute + ahead) << 32
}
