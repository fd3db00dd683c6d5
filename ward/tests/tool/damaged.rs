//! Damaged texts: a mistake with a place in the text, or the record that a second reader finds too; never a wrong record.

use random::Random;
use ward_reader::{record, Clock, Weight};

use crate::random_texts::{clock, text, Meant};
use crate::second;

const SIGNS: [char; 34] = [
    'a', 'b', 'm', '1', '2', '9', '0', '+', '-', ',', '(', ')', '<', '=', '>', '≤', ':', '.', '#', '"', '\'', ' ',
    '\t', '\n', '–', '“', 'é', 'T', '\u{200B}', '\u{A0}', '\u{7}', '&', ';', '\u{FEFF}',
];

/// A text with a small damage.
fn damaged(random: &mut Random, text: &str) -> String {
    let mut characters: Vec<char> = text.chars().collect();
    let place = random.below(characters.len());
    let other = random.below(characters.len());
    match random.below(7) {
        0 => {
            characters.remove(place);
        }
        1 => characters.insert(place, SIGNS[random.below(SIGNS.len())]),
        2 => characters[place] = SIGNS[random.below(SIGNS.len())],
        3 => characters.swap(place, other),
        4 => characters.truncate(place),
        5 => characters.insert(place, characters[other]),
        _ => {
            let mut lines: Vec<&str> = text.lines().collect();
            let (place, other) = (random.below(lines.len()), random.below(lines.len()));
            let lifted = format!("suspended: {}", lines[place].trim_start());
            match random.below(4) {
                0 => lines.swap(place, other),
                1 => lines.insert(place, lines[other]),
                2 => lines[place] = &lifted,
                _ => {
                    lines.remove(place);
                }
            }
            return lines.join("\n");
        }
    }
    characters.into_iter().collect()
}

/// Whether a text was taken.
fn judged(text: &str) -> bool {
    let read = ward_reader::read(text.as_bytes(), &clock());
    for remark in &read.remarks {
        let line = read.lines.get(remark.place.line - 1).unwrap_or_else(|| panic!("{remark:?}\n{text}"));
        assert!((1..=line.chars().count() + 1).contains(&remark.place.column), "{remark:?}\n{text}");
        assert!(remark.in_file("x", &read.lines).contains('^'));
    }
    let Some(sheet) = read.sheet else {
        assert!(read.remarks.iter().any(|remark| remark.weight == Weight::Mistake));
        return false;
    };
    assert_eq!(Some(record::sent(&sheet).concat()), second::record(text), "{text}");
    true
}

#[test]
fn damaged_texts_are_never_read_wrongly() {
    let mut random = Random::new(35);
    let (mut taken, mut told, mut suspended) = (0, 0, 0);
    for _ in 0..400 {
        let Meant { text, record } = text(&mut random, 6, 6);
        assert_eq!(second::record(&text), Some(record), "{text}");
        for _ in 0..20 {
            let mut worse = damaged(&mut random, &text);
            while random.chance(1, 3) && !worse.is_empty() {
                worse = damaged(&mut random, &worse);
            }
            match judged(&worse) {
                true => {
                    taken += 1;
                    suspended += worse.contains("suspended:") as usize;
                }
                false => told += 1,
            }
        }
    }
    assert!(
        taken > 1_000 && told > 2_000 && suspended > 50,
        "{taken} taken, {suspended} with suspended rules, {told} told"
    );
}

/// Bytes of any kind are told, or are a text, and nothing panics.
#[test]
fn random_bytes_do_no_harm() {
    let mut random = Random::new(36);
    let words = [
        "moments:",
        "span:",
        "from",
        "to",
        "later of",
        "<=",
        "a",
        "\"",
        "#",
        "+",
        "1:30",
        "\n",
        " ",
        "é",
        "anchor",
        "expect:",
        "suspended:",
        "open:",
        "Mon",
        "-",
        "7:00",
        "\u{85}",
        "\u{2028}",
        "not before",
        "by",
        "at least",
        "at most",
        "exactly",
        "after",
        "before",
        "between",
        "within",
        "35",
        "2 h",
        "3 days",
        "1.5",
        "1,5",
        "8:40 pm",
        "Thu",
        "midnight",
        "next",
        "2026-11-17",
        "11/12/2026",
        "anchor: 8:00\n",
        "moments: a, b, \"a-1\"\n",
        "nothing before anchor",
        "but",
        "a-1",
        "“b”",
        "„",
        "–",
        "(",
        ")",
        "=",
        ">=",
        "->",
        "and",
        "both",
        "earlier of",
        "max(",
        "#1",
        "\u{AD}",
        "e\u{301}",
        "a # 2\n",
    ];
    for _ in 0..3_000 {
        let mut bytes: Vec<u8> = (0..random.below(30))
            .flat_map(|_| words[random.below(words.len())].bytes().chain([b' ']).collect::<Vec<_>>())
            .collect();
        for _ in 0..random.below(3) {
            let place = random.below(bytes.len() + 1);
            bytes.insert(place, random.word() as u8);
        }
        for clock in [clock(), Clock::unjudged()] {
            let read = ward_reader::read(&bytes, &clock);
            read.remarks.iter().for_each(|remark| drop(remark.in_file("x", &read.lines)));
        }
    }
}

/// Brackets within brackets, and lines as long as a text may be, end the reading with a mistake.
#[test]
fn deep_and_long_lines_do_no_harm() {
    for part in ["(", "later of (", "a, ", "a <= ", "a + ", "1 day ", "- ", "a and ", "\"", "#1 ", "1:", "a-"] {
        let line = part.repeat(400_000 / part.len());
        let read = ward_reader::read(format!("moments: a\n{line}\nspan: from a to a\n").as_bytes(), &clock());
        assert!(read.remarks.iter().all(|remark| remark.in_file("x", &read.lines).len() < 10_000), "{part}");
    }
}

/// Lines that went wrong once.
#[test]
fn lines_that_did_harm_do_none() {
    for line in [
        "span: between and a",
        "span: to from a",
        "a by #",
        "moments: - a",
        "#1 ",
        "a 5 to",
        "nothing before anchor but",
    ] {
        assert!(!judged(&format!("moments: a\n{line}\nspan: from a to a\n")) || line == "#1 ", "{line}");
    }
    // What follows a name is no part of another one.
    let text =
        "moments: a, \"a + 15\", \"a, b\", b\n\"a\" + 15 <= b\nlater of \"a\", b <= \"a, b\"\nspan: from a to b\n";
    let sheet = ward_reader::read(text.as_bytes(), &clock()).sheet.expect("a good text");
    let again = ward_reader::shown::text(&sheet, &clock());
    let back = ward_reader::read(again.as_bytes(), &clock()).sheet.unwrap_or_else(|| panic!("{again}"));
    assert_eq!(record::sent(&back), record::sent(&sheet), "{again}");
}
