//! Names that look alike: the same letters to somebody who reads them, and others to a program.

/// Letters with an accent, each behind its letter, by the combining accent.
const ACCENTS: [(char, &str); 11] = [
    ('\u{300}', "AÀEÈIÌOÒUÙaàeèiìoòuùNǸnǹ"),
    ('\u{301}', "AÁEÉIÍOÓUÚYÝaáeéiíoóuúyýCĆcćLĹlĺNŃnńRŔrŕSŚsśZŹzź"),
    ('\u{302}', "AÂEÊIÎOÔUÛaâeêiîoôuûCĈcĉGĜgĝHĤhĥJĴjĵSŜsŝWŴwŵYŶyŷ"),
    ('\u{303}', "AÃNÑOÕaãnñoõIĨiĩUŨuũ"),
    ('\u{306}', "AĂaăEĔeĕGĞgğIĬiĭOŎoŏUŬuŭ"),
    ('\u{307}', "CĊcċEĖeėGĠgġIİZŻzż"),
    ('\u{308}', "AÄEËIÏOÖUÜaäeëiïoöuüyÿYŸ"),
    ('\u{30A}', "AÅaåUŮuů"),
    ('\u{30B}', "OŐoőUŰuű"),
    ('\u{30C}', "CČcčDĎdďEĚeěNŇnňRŘrřSŠsšTŤtťZŽzž"),
    ('\u{327}', "CÇcçSŞsşTŢtţ"),
];

/// Letters of other alphabets, each behind the one that it looks like.
const OTHERS: &str = "aаeеoоpрcсyуxхiіjјsѕhһAАBВEЕKКMМHНOОPРCСTТXХIІoοvνAΑBΒEΕZΖHΗIΙKΚMΜNΝOΟPΡTΤYΥXΧ";

fn pair(pairs: &str, wanted: impl Fn(char, char) -> bool) -> Option<(char, char)> {
    let (plain, others) = (pairs.chars().step_by(2), pairs.chars().skip(1).step_by(2));
    plain.zip(others).find(|&(plain, other)| wanted(plain, other))
}

fn accent(c: char) -> Option<&'static str> {
    ACCENTS.iter().find(|(accent, _)| *accent == c).map(|(_, letters)| *letters)
}

/// A character as a reader sees it.
fn seen(c: char) -> Option<char> {
    Some(match c {
        '\u{AD}' | '\u{200B}'..='\u{200F}' | '\u{2060}' | '\u{FEFF}' | '\u{FE00}'..='\u{FE0F}' => return None,
        c if c.is_whitespace() => ' ',
        '–' | '—' | '−' | '‐' | '‑' | '‒' => '-',
        '’' | '‘' | 'ʼ' | '′' | '`' | '´' => '\'',
        '\u{FF01}'..='\u{FF5E}' => char::from_u32(c as u32 - 0xFEE0)?,
        c => pair(OTHERS, |_, other| other == c).map_or(c, |(plain, _)| plain),
    })
}

/// A name as a reader sees it: two names that look alike give the same text.
pub fn look(name: &str) -> String {
    let mut look = String::new();
    for c in name.chars() {
        if let Some(letters) = accent(c) {
            let last = look.chars().next_back();
            if let Some((_, whole)) = last.and_then(|last| pair(letters, |plain, _| plain == last)) {
                look.pop();
                look.push(whole);
                continue;
            }
        }
        match seen(c) {
            Some(' ') if look.ends_with(' ') => {}
            Some(c) => look.push(c),
            None => {}
        }
    }
    look.trim().to_lowercase()
}

/// What a character is called.
fn called(c: char) -> String {
    let kind = match c {
        '\u{A0}' | '\u{202F}' => "a no-break space",
        '\u{AD}' => "a soft hyphen",
        '\u{300}'..='\u{36F}' => "a combining accent",
        '‑' => "a no-break hyphen",
        '–' => "an en dash",
        '—' => "an em dash",
        '−' => "a minus sign",
        '’' | '‘' => "a typographic apostrophe",
        '\u{400}'..='\u{4FF}' => "a Cyrillic letter",
        '\u{370}'..='\u{3FF}' => "a Greek letter",
        '\u{FF10}'..='\u{FF19}' => "a wide digit",
        '\u{FF01}'..='\u{FF5E}' => "a wide letter or sign",
        c if c.is_whitespace() => "a space of another kind",
        c if c.is_uppercase() => return format!("the capital letter '{c}'"),
        _ => "another character",
    };
    format!("{kind}, U+{:04X}", c as u32)
}

/// A name with one space where it has several.
fn single(name: &str) -> String {
    name.split_whitespace().collect::<Vec<_>>().join(" ")
}

/// In what two names differ that look alike, in words: `one has a no-break space, U+00A0`.
pub fn difference(one: &str, other: &str) -> String {
    let strange = |name: &str, beside: &str| {
        name.chars().find(|&c| {
            let hidden = seen(c) != Some(c) || accent(c).is_some() && !beside.contains(c);
            c != ' ' && hidden && !beside.contains(c)
        })
    };
    let capital = |name: &str, beside: &str| {
        let same = |c: char, other: char| c.to_lowercase().eq(other.to_lowercase());
        let pair = |(c, other): &(char, char)| c != other && c.is_uppercase() && same(*c, *other);
        let (name, beside) = (single(name), single(beside));
        name.chars().zip(beside.chars()).find(pair).map(|(c, _)| c)
    };
    let names = [(one, other), (other, one)];
    let found = names.iter().find_map(|(name, beside)| Some((*name, strange(name, beside)?)));
    let found = found.or_else(|| names.iter().find_map(|(name, beside)| Some((*name, capital(name, beside)?))));
    match found {
        Some((name, c)) => format!("'{name}' has {}", called(c)),
        None if one.trim() != one || other.trim() != other => "one has a space at its start or end".into(),
        None if one.split(' ').count() != other.split(' ').count() => {
            "one has two spaces where the other has one".into()
        }
        None => "they differ in a character that looks the same".into(),
    }
}

#[cfg(test)]
mod tests {
    use super::*;

    #[test]
    fn names_that_look_alike_are_found_and_told() {
        for (one, other, told) in [
            ("Ready", "ready", "capital letter 'R'"),
            ("bed 4", "bed\u{A0}4", "no-break space, U+00A0"),
            ("hand\u{AD}over", "handover", "soft hyphen, U+00AD"),
            ("B\u{E4}r", "Ba\u{308}r", "combining accent, U+0308"),
            ("ward a", "ward \u{430}", "Cyrillic letter, U+0430"),
            ("bed  free", "bed free", "two spaces"),
            ("Bed  Free", "Bed Free", "two spaces"),
            ("bed 4 ", "bed 4", "a space at its start or end"),
            ("ward-4", "ward\u{2011}4", "no-break hyphen, U+2011"),
            ("ward-4", "ward–4", "en dash, U+2013"),
            ("O'Hara", "O’Hara", "apostrophe, U+2019"),
            ("bed 4", "bed \u{FF14}", "wide digit, U+FF14"),
        ] {
            assert_eq!(look(one), look(other), "{one} {other}");
            assert!(difference(one, other).contains(told), "{}", difference(one, other));
            assert!(difference(other, one).contains(told), "{}", difference(other, one));
        }
        for (one, other) in [("bed 1", "bed 2"), ("a", "b"), ("bed1", "bed 1"), ("Bär", "Bar"), ("1O", "10")] {
            assert_ne!(look(one), look(other));
        }
    }
}
