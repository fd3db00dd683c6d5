//! Hours and minutes on the sheet, document 02, 2.7: the reader and the writer.

use super::bytes::seen;
use crate::paper::Minute;
use crate::tally::Tally;
use random::Random;
use std::collections::HashMap;

const LIMIT: i64 = 6_000_000;
const OFFSET: i64 = 1 << 31;
const REFUSED: u64 = 18;
const NOISE: u8 = 0xA5;

/// A value as the functions take it and give it back.
fn offset(value: Minute) -> u64 {
    value.map_or(0, |minutes| (minutes + OFFSET) as u64)
}

/// The value that a text says, by document 02's words one after the other; 18 where it is not of this form.
fn said(text: &[u8]) -> Result<Minute, u64> {
    if text == b"--" {
        return Ok(None);
    }
    let minus = text.first() == Some(&b'-');
    let clock = if minus { &text[1..] } else { text };
    let colon = clock.iter().position(|&byte| byte == b':').ok_or(REFUSED)?;
    let (hours, minutes) = (&clock[..colon], &clock[colon + 1..]);
    let all_digits = hours.iter().chain(minutes).all(u8::is_ascii_digit);
    let leading_zero = hours.len() > 1 && hours[0] == b'0';
    if !all_digits || hours.is_empty() || hours.len() > 12 || leading_zero || minutes.len() != 2 {
        return Err(REFUSED);
    }
    let number = |digits: &[u8]| digits.iter().fold(0, |number, &digit| 10 * number + (digit - b'0') as i64);
    let value = 60 * number(hours) + number(minutes);
    if number(minutes) >= 60 || value > LIMIT || (minus && value == 0) {
        return Err(REFUSED);
    }
    Ok(Some(if minus { -value } else { value }))
}

/// The reader on one string of bytes.
fn read(tally: &mut Tally, text: &[u8], expected: Result<Minute, u64>) {
    let result = span::raw::hours_read(text);
    match expected {
        Ok(value) => {
            tally.same("the value read", result, offset(value) << 32, &[], text);
            tally.count("texts read");
        }
        Err(refusal) => {
            tally.same("the reader's refusal", result, refusal, &[], text);
            tally.count("strings refused");
        }
    }
}

/// The writer on a value and a buffer of so many bytes: the text, with the bytes after it as they were, or 18 and all of them.
fn write(tally: &mut Tally, value: u64, length: usize, text: Option<&[u8]>) {
    let mut buffer = [NOISE; 32];
    let result = span::raw::hours_write(value, &mut buffer[..length]);
    let mut expected = [NOISE; 32];
    match text {
        Some(text) if length >= 10 => {
            expected[..text.len()].copy_from_slice(text);
            tally.same("the size written", result, 256 * text.len() as u64, &[], text);
            tally.count("texts written");
        }
        _ => {
            tally.same(&format!("the writer's refusal, {value} in {length} bytes"), result, REFUSED, &[], &[]);
            tally.count("values refused");
        }
    }
    tally.same(&format!("the buffer, {value} in {length} bytes"), buffer, expected, &[], &[]);
}

/// A value and its text, in the buffer's own length and there and back.
fn there_and_back(value: Minute, text: &[u8]) -> bool {
    let mut buffer = [NOISE; 12];
    let written = span::raw::hours_write(offset(value), &mut buffer);
    let rest_stays = buffer[text.len()..].iter().all(|&byte| byte == NOISE);
    written == 256 * text.len() as u64
        && &buffer[..text.len()] == text
        && rest_stays
        && span::raw::hours_read(text) == offset(value) << 32
}

/// Every value with its text: hours 0 to 100,000, minutes 0 to 59, with and without a minus, and blank.
fn every_value(mut each: impl FnMut(Minute, &[u8])) {
    each(None, b"--");
    for hours in 0..=100_000 {
        let mut text = format!("-{hours}:00").into_bytes();
        let minutes_at = text.len() - 2;
        for minutes in 0..60 {
            let value = 60 * hours + minutes;
            if value > LIMIT {
                break;
            }
            text[minutes_at] = b'0' + (minutes / 10) as u8;
            text[minutes_at + 1] = b'0' + (minutes % 10) as u8;
            each(Some(value), &text[1..]);
            if value > 0 {
                each(Some(-value), &text);
            }
        }
    }
}

pub fn run(tally: &mut Tally) {
    let mut short = HashMap::new();
    let mut values = 0;
    every_value(|value, text| {
        values += 1;
        if !there_and_back(value, text) {
            tally.fail(format!("{value:?} there and back"), &[], text);
        }
        if text.len() <= 5 {
            short.insert(text.to_vec(), value);
        }
    });
    tally.same("values there and back", values, 2 * LIMIT + 2, &[], &[]);
    println!("hours: {values} values there and back");
    every_short_string(tally, &short);
    named_texts(tally);
    buffers_and_limits(tally);
    changed_texts(tally);
    for what in ["texts read", "strings refused", "texts written", "values refused"] {
        seen(tally, what);
    }
}

/// All strings of up to 5 characters over these: a value where the string is the text of one, else 18.
fn every_short_string(tally: &mut Tally, texts: &HashMap<Vec<u8>, Minute>) {
    const LETTERS: &[u8; 14] = b"-:0123456789 x";
    let mut taken = 0;
    for length in 0..=5 {
        for number in 0..LETTERS.len().pow(length) {
            let mut left = number;
            let mut text = [0; 5];
            for place in &mut text[..length as usize] {
                *place = LETTERS[left % LETTERS.len()];
                left /= LETTERS.len();
            }
            let text = &text[..length as usize];
            let expected = texts.get(text).copied().ok_or(REFUSED);
            tally.same("what document 02 says of it", said(text), expected, &[], text);
            taken += expected.is_ok() as usize;
            read(tally, text, expected);
        }
    }
    tally.same("short strings taken", taken, texts.len(), &[], &[]);
}

/// Texts by name.
fn named_texts(tally: &mut Tally) {
    let wrong: [&[u8]; 17] = [
        b"-0:00",
        b"00:00",
        b"7:5",
        b"7:60",
        b"+7:05",
        b" 7:05",
        b"100000:01",
        b"---",
        b"",
        b"-",
        b"7:05 ",
        b"7:05\n",
        b"07:05",
        b"-100000:01",
        b"-07:05",
        b"7:005",
        b"4294967296:00",
    ];
    for text in wrong {
        read(tally, text, Err(REFUSED));
    }
    let right: [(&[u8], Minute); 9] = [
        (b"7:05", Some(425)),
        (b"0:00", Some(0)),
        (b"-0:05", Some(-5)),
        (b"-0:01", Some(-1)),
        (b"--", None),
        (b"100000:00", Some(LIMIT)),
        (b"-100000:00", Some(-LIMIT)),
        (b"99999:59", Some(LIMIT - 1)),
        (b"-10:30", Some(-630)),
    ];
    for (text, value) in right {
        read(tally, text, Ok(value));
        write(tally, offset(value), 10, Some(text));
        let mut buffer = [0; span::TEXT_SIZE];
        let value = value.map(|minutes| minutes as i32);
        tally.same("the package's reader", span::read_hours(text), Ok(value), &[], text);
        tally.same("the package's writer", span::write_hours(value, &mut buffer), Ok(text.len()), &[], text);
        tally.same("the package's text", &buffer[..text.len()], text, &[], text);
    }
    for minutes in [i32::MIN, i32::MIN + 1, -6_000_001, 6_000_001, i32::MAX] {
        let refused = span::write_hours(Some(minutes), &mut [0; 10]).map_err(|refusal| refusal.number);
        tally.same(&format!("the package's writer on {minutes}"), refused, Err(REFUSED as u8), &[], &[]);
    }
}

/// Buffers of every length to 12, also 9 and 10, for short and long texts; values at the limit and beyond it.
fn buffers_and_limits(tally: &mut Tally) {
    let texts: [(Minute, &[u8]); 5] = [
        (None, b"--"),
        (Some(0), b"0:00"),
        (Some(425), b"7:05"),
        (Some(LIMIT), b"100000:00"),
        (Some(-LIMIT), b"-100000:00"),
    ];
    for (value, text) in texts {
        for length in 0..=12 {
            write(tally, offset(value), length, Some(text));
        }
    }
    let beyond = [LIMIT + 1, -LIMIT - 1, 10 * LIMIT, OFFSET - 1, 1 - OFFSET].map(|value| offset(Some(value)));
    for value in beyond.into_iter().chain([1 << 32, (1 << 32) + (1 << 31), (1 << 63) + (1 << 31), u64::MAX]) {
        for length in [0, 9, 10, 12] {
            write(tally, value, length, None);
        }
    }
}

/// Texts with a byte changed, put in or taken out, and random bytes.
fn changed_texts(tally: &mut Tally) {
    const SEED: u64 = 6_000_000;
    tally.seed(SEED);
    let mut random = Random::new(SEED);
    const LETTERS: &[u8] = b"-:0123456789 +x\0/;";
    for _ in 0..300_000 {
        let minutes = random.within(-LIMIT, LIMIT) / [1, 1, 60, 1_000, 100_000][random.below(5)];
        let sign = if minutes < 0 { "-" } else { "" };
        let mut text = format!("{sign}{}:{:02}", minutes.abs() / 60, minutes.abs() % 60).into_bytes();
        for _ in 0..1 + random.below(2) {
            let place = random.below(text.len() + 1);
            let letter =
                if random.chance(1, 8) { random.below(256) as u8 } else { LETTERS[random.below(LETTERS.len())] };
            match random.below(3) {
                0 => text.insert(place, letter),
                1 if place < text.len() => text[place] = letter,
                _ if place < text.len() => {
                    text.remove(place);
                }
                _ => text.push(letter),
            }
        }
        let expected = said(&text);
        read(tally, &text, expected);
        if let Ok(value) = expected {
            write(tally, offset(value), 10 + random.below(20), Some(&text));
        }
        let mut bytes = vec![0; random.below(40)];
        random.fill(&mut bytes);
        read(tally, &bytes, said(&bytes));
    }
}
