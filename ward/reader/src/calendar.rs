//! Dates, as numbers of days from 1970-01-01. Clock changes are not looked at.

use crate::clock::DAYS;

/// The first and the last year that a text may name.
const YEARS: std::ops::RangeInclusive<i64> = 1900..=2999;

/// The number of a date's day, where there is such a date.
pub fn day(year: i64, month: i64, date: i64) -> Option<i64> {
    if !YEARS.contains(&year) || !(1..=12).contains(&month) || !(1..=length(year, month)).contains(&date) {
        return None;
    }
    let months: i64 = (1..month).map(|month| length(year, month)).sum();
    Some(365 * (year - 1970) + leaps(year - 1) - leaps(1969) + months + date - 1)
}

/// The leap years up to a year.
fn leaps(year: i64) -> i64 {
    year / 4 - year / 100 + year / 400
}

/// The days of a month.
fn length(year: i64, month: i64) -> i64 {
    match month {
        2 => 28 + (leaps(year) - leaps(year - 1)),
        4 | 6 | 9 | 11 => 30,
        _ => 31,
    }
}

/// Year, month and date of a day, for days of the years that a text may name and those beside them.
pub fn date(day: i64) -> (i64, i64, i64) {
    let start = |year: i64| 365 * (year - 1970) + leaps(year - 1) - leaps(1969);
    let mut year = 1969 + day.div_euclid(366);
    while start(year + 1) <= day {
        year += 1;
    }
    let (mut month, mut rest) = (1, day - start(year));
    while rest >= length(year, month) {
        rest -= length(year, month);
        month += 1;
    }
    (year, month, rest + 1)
}

/// The day of the week, 0 for Monday; 1970-01-01 was a Thursday.
pub fn weekday(day: i64) -> usize {
    (day + 3).rem_euclid(7) as usize
}

/// A day as it is written: `2026-11-17`.
pub fn written(day: i64) -> String {
    let (year, month, date) = date(day);
    format!("{year:04}-{month:02}-{date:02}")
}

/// A day with its day of the week: `Tue 2026-11-17`.
pub fn named(day: i64) -> String {
    format!("{} {}", &DAYS[weekday(day)][..3], written(day))
}

/// A text of four digits, two and two, with hyphens, as year, month and date; whether there is such a date is not looked at.
pub fn numbers(word: &str) -> Option<(i64, i64, i64)> {
    let parts: Vec<&str> = word.split('-').collect();
    let [year, month, date] = parts[..] else { return None };
    let digits = |part: &str, count: usize| part.len() == count && part.bytes().all(|byte| byte.is_ascii_digit());
    let good = digits(year, 4) && digits(month, 2) && digits(date, 2);
    good.then_some(())?;
    Some((year.parse().ok()?, month.parse().ok()?, date.parse().ok()?))
}

/// The first of some days on which clocks change in Europe or North America: the last Sunday of March and of October, the second
/// Sunday of March and the first of November.
pub fn change(first: i64, last: i64) -> Option<i64> {
    (first..=last.min(first.saturating_add(20_000))).find(|&day| {
        let (year, month, number) = date(day);
        let last_week = number > length(year, month) - 7;
        weekday(day) == 6
            && match month {
                3 => last_week || (8..15).contains(&number),
                10 => last_week,
                11 => number <= 7,
                _ => false,
            }
    })
}

#[cfg(test)]
mod tests {
    use super::*;

    #[test]
    fn dates_are_counted() {
        assert_eq!((day(1970, 1, 1), weekday(0)), (Some(0), 3));
        assert_eq!(day(2026, 11, 17).map(weekday), Some(1));
        assert_eq!(day(2000, 2, 29).map(|day| date(day + 1)), Some((2000, 3, 1)));
        for (year, month, date) in [(2026, 2, 29), (2100, 2, 29), (2026, 13, 1), (2026, 4, 31), (2026, 1, 0), (1, 1, 1)]
        {
            assert_eq!(day(year, month, date), None);
        }
        let mut number = day(1900, 1, 1).expect("a date");
        for year in 1900..=2999 {
            for month in 1..=12 {
                for of_month in 1..=length(year, month) {
                    assert_eq!((day(year, month, of_month), date(number)), (Some(number), (year, month, of_month)));
                    number += 1;
                }
            }
        }
        assert_eq!(named(day(2026, 11, 17).expect("a date")), "Tue 2026-11-17");
        assert_eq!(
            (numbers("2026-11-17"), numbers("26-11-17"), numbers("2026-11")),
            (Some((2026, 11, 17)), None, None)
        );
    }

    #[test]
    fn clock_changes_are_known() {
        let between = |from: (i64, i64, i64), to: (i64, i64, i64)| {
            let number = |(year, month, date)| day(year, month, date).expect("a date");
            change(number(from), number(to)).map(written)
        };
        assert_eq!(between((2026, 10, 24), (2026, 10, 25)), Some("2026-10-25".into()));
        assert_eq!(between((2026, 3, 28), (2026, 3, 30)), Some("2026-03-29".into()));
        assert_eq!(between((2026, 3, 7), (2026, 3, 9)), Some("2026-03-08".into()));
        assert_eq!(between((2026, 11, 1), (2026, 11, 2)), Some("2026-11-01".into()));
        assert_eq!(between((2026, 11, 16), (2026, 11, 30)), None);
    }
}
