//! Spans and stamps as hours and minutes. Document 02, 2.7.

/// The largest size of a value with a text.
const LARGEST: i64 = 6_000_000;

/// The text of a value; `None` where it is beyond the limit.
pub fn text(value: Option<i64>) -> Option<String> {
    match value {
        None => Some("--".into()),
        Some(minutes) if minutes.unsigned_abs() <= LARGEST as u64 => {
            let sign = if minutes < 0 { "-" } else { "" };
            let size = minutes.abs();
            Some(format!("{sign}{}:{:02}", size / 60, size % 60))
        }
        Some(_) => None,
    }
}

/// The value whose text this is, by a guess that must have the same text; `None` where it is no value's text.
pub fn value(bytes: &[u8]) -> Option<Option<i64>> {
    let guess = guess(std::str::from_utf8(bytes).ok()?);
    (text(guess)?.as_bytes() == bytes).then_some(guess)
}

/// What a text seems to say; blank where it says nothing.
fn guess(text: &str) -> Option<i64> {
    let (sign, clock) = text.strip_prefix('-').map_or((1, text), |rest| (-1, rest));
    let (hours, minutes) = clock.split_once(':')?;
    let (hours, minutes): (u32, u32) = (hours.parse().ok()?, minutes.parse().ok()?);
    Some(sign * (60 * hours as i64 + minutes as i64))
}
