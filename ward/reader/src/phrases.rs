//! Words and phrases for those that are read.

use crate::plain::{one, Put, Seen};

/// What is written, and what is read in its place; nothing where it is left out.
const PHRASES: [(&str, &str); 111] = [
    ("never after", "not after"),
    ("never before", "not before"),
    ("always", ""),
    ("sharp", ""),
    ("by latest", "by"),
    ("by the latest", "by"),
    ("latest by", "by"),
    ("since", "not before"),
    ("starting at", "not before"),
    ("starting", "not before"),
    ("both", ""),
    ("atleast", "at least"),
    ("at-least", "at least"),
    ("atmost", "at most"),
    ("at-most", "at most"),
    ("plus", "+"),
    ("minus", "-"),
    ("at the same time as", "="),
    ("the same time as", "="),
    ("same time as", "="),
    ("at the same time with", "="),
    ("simultaneously with", "="),
    ("gleichzeitig mit", "="),
    ("must not be before", "not before"),
    ("must not be after", "not after"),
    ("may not be before", "not before"),
    ("may not be after", "not after"),
    ("cannot be before", "not before"),
    ("cannot be after", "not after"),
    ("can not be before", "not before"),
    ("can not be after", "not after"),
    ("must be", ""),
    ("has to be", ""),
    ("have to be", ""),
    ("needs to be", ""),
    ("should be", ""),
    ("shall be", ""),
    ("will be", ""),
    ("nicht vor", "not before"),
    ("nicht nach", "not after"),
    ("nicht später als", "by"),
    ("nicht früher als", "not before"),
    ("bis spätestens", "by"),
    ("spätestens um", "by"),
    ("spätestens bis", "by"),
    ("spätestens", "by"),
    ("bis", "by"),
    ("frühestens um", "not before"),
    ("frühestens ab", "not before"),
    ("frühestens", "not before"),
    ("ab", "not before"),
    ("mindestens", "at least"),
    ("höchstens", "at most"),
    ("maximal", "at most"),
    ("genau um", "="),
    ("genau", "exactly"),
    ("um", "="),
    ("nach", "after"),
    ("vor", "before"),
    ("und", "and"),
    ("oder", "or"),
    ("morgen", "tomorrow"),
    ("heute", "today"),
    ("mittag", "noon"),
    ("mitternacht", "midnight"),
    ("half an hour", "30 min"),
    ("half hour", "30 min"),
    ("a half hour", "30 min"),
    ("a quarter of an hour", "15 min"),
    ("quarter of an hour", "15 min"),
    ("three quarters of an hour", "45 min"),
    ("an hour and a half", "90 min"),
    ("one and a half hours", "90 min"),
    ("eine halbe stunde", "30 min"),
    ("eine viertelstunde", "15 min"),
    ("eine stunde", "1 h"),
    ("an hour", "1 h"),
    ("one hour", "1 h"),
    ("two hours", "2 h"),
    ("a day", "1 day"),
    ("one day", "1 day"),
    ("two days", "2 days"),
    ("a week", "7 days"),
    ("one week", "7 days"),
    ("a fortnight", "14 days"),
    ("end of day", "24:00"),
    ("the end of the day", "24:00"),
    ("eod", "24:00"),
    ("is", ""),
    ("ist", ""),
    ("muss", ""),
    ("one", "1"),
    ("two", "2"),
    ("three", "3"),
    ("four", "4"),
    ("six", "6"),
    ("seven", "7"),
    ("eight", "8"),
    ("nine", "9"),
    ("eleven", "11"),
    ("twelve", "12"),
    ("five", "5"),
    ("ten", "10"),
    ("fifteen", "15"),
    ("twenty", "20"),
    ("thirty", "30"),
    ("forty", "40"),
    ("forty-five", "45"),
    ("fifty", "50"),
    ("sixty", "60"),
    ("ninety", "90"),
];

/// Words in brackets behind a time.
const BRACKETS: [(&str, &str); 6] = [
    ("latest", "at the latest"),
    ("at the latest", "at the latest"),
    ("earliest", "at the earliest"),
    ("at the earliest", "at the earliest"),
    ("spätestens", "at the latest"),
    ("frühestens", "at the earliest"),
];

/// A slip of the keyboard in a word of a rule: `at leest`, `10 afer`.
pub fn slip(seen: &Seen) -> Option<Put> {
    let word = seen.word(0);
    let before = seen.before()?;
    let small = before.text.to_lowercase();
    let amount = small.starts_with(|c: char| c.is_ascii_digit()) || crate::length::unit(&small).is_some();
    let words: &[&str] = match () {
        _ if small == "at" => &["least", "most"],
        _ if amount => &["after", "before"],
        _ => return None,
    };
    let known = words.contains(&word.as_str()) || word.chars().count() < 4 || !word.chars().all(char::is_alphabetic);
    let near = crate::hints::near(&word, words.iter().copied()).filter(|_| !known)?;
    one(1, near)
}

/// A word that says nothing exact, where a limit stands before it: `by about 9:00`. The limit is exact.
pub fn vague(seen: &Seen) -> Option<Put> {
    let words = ["about", "around", "circa", "ca.", "ca", "approximately", "roughly"];
    words.contains(&seen.word(0).as_str()).then_some(())?;
    let limits = ["by", "before", "after", "least", "most"];
    let before = seen.tokens[..seen.at].iter().any(|token| limits.contains(&token.text.to_lowercase().as_str()));
    let behind = seen.word(1);
    let time = behind.starts_with(|c: char| c.is_ascii_digit()) || crate::clock::day(&behind).is_some();
    (before && time).then(|| (1, vec![("an exact limit", String::new())]))
}

/// The longest phrase that stands here.
pub fn found(seen: &Seen) -> Option<Put> {
    let stands =
        |phrase: &str, from: usize| phrase.split(' ').enumerate().all(|(ahead, word)| seen.word(from + ahead) == word);
    let count = |phrase: &str| phrase.split(' ').count();
    if seen.plain(0) == "(" {
        let found = BRACKETS.iter().find(|(phrase, _)| stands(phrase, 1) && seen.plain(1 + count(phrase)) == ")");
        return found.and_then(|(phrase, meant)| one(2 + count(phrase), *meant));
    }
    match seen.word(0).as_str() {
        "spätestens" if seen.ends(1) => return one(1, "at the latest"),
        "frühestens" if seen.ends(1) => return one(1, "at the earliest"),
        _ => {}
    }
    let found = PHRASES.iter().filter(|(phrase, _)| stands(phrase, 0)).max_by_key(|(phrase, _)| count(phrase));
    found.and_then(|(phrase, meant)| one(count(phrase), *meant))
}
