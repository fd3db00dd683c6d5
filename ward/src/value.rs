//! Values of JSON (RFC 8259): written over lines or on one, and read.

use std::fmt::Write;

/// A value. Numbers are whole.
#[derive(Clone, Debug, PartialEq, Eq)]
pub enum Value {
    Null,
    True(bool),
    Number(i64),
    Text(String),
    List(Vec<Value>),
    Object(Vec<(String, Value)>),
}

use Value::{List, Null, Number, Object, Text, True};

pub fn text(words: impl Into<String>) -> Value {
    Text(words.into())
}

/// An object of these fields.
pub fn object(fields: Vec<(&str, Value)>) -> Value {
    Object(fields.into_iter().map(|(name, value)| (name.to_string(), value)).collect())
}

impl Value {
    /// Over lines.
    pub fn lines(&self) -> String {
        let mut out = String::new();
        self.write(&mut out, Some(0));
        out
    }

    /// On one line.
    pub fn line(&self) -> String {
        let mut out = String::new();
        self.write(&mut out, None);
        out
    }

    fn write(&self, out: &mut String, depth: Option<usize>) {
        match self {
            Null => out.push_str("null"),
            True(value) => out.push_str(if *value { "true" } else { "false" }),
            Number(value) => out.push_str(&value.to_string()),
            Text(words) => quoted(words, out),
            List(values) => parts(out, depth, ['[', ']'], values, |value, out, depth| value.write(out, depth)),
            Object(fields) => parts(out, depth, ['{', '}'], fields, |(name, value), out, depth| {
                quoted(name, out);
                out.push_str(": ");
                value.write(out, depth);
            }),
        }
    }
}

/// The parts of a list or an object, each on a line where there are lines.
fn parts<T>(
    out: &mut String,
    depth: Option<usize>,
    [open, close]: [char; 2],
    parts: &[T],
    write: impl Fn(&T, &mut String, Option<usize>),
) {
    let line = |out: &mut String, depth: Option<usize>| {
        if let Some(depth) = depth {
            let _ = write!(out, "\n{}", "  ".repeat(depth));
        }
    };
    let within = depth.map(|depth| depth + 1);
    out.push(open);
    for (place, part) in parts.iter().enumerate() {
        if place > 0 {
            out.push_str(if depth.is_some() { "," } else { ", " });
        }
        line(out, within);
        write(part, out, within);
    }
    if !parts.is_empty() {
        line(out, depth);
    }
    out.push(close);
}

fn quoted(words: &str, out: &mut String) {
    out.push('"');
    for c in words.chars() {
        match c {
            '"' => out.push_str("\\\""),
            '\\' => out.push_str("\\\\"),
            '\n' => out.push_str("\\n"),
            '\t' => out.push_str("\\t"),
            c if (c as u32) < 0x20 || c == '\u{7f}' => {
                let _ = write!(out, "\\u{:04x}", c as u32);
            }
            c => out.push(c),
        }
    }
    out.push('"');
}

/// The value of a text, or where it goes wrong and how.
pub fn read(text: &str) -> Result<Value, String> {
    let mut reader = Reader { text, at: 0, depth: 0 };
    let value = reader.value()?;
    reader.space();
    match reader.at == text.len() {
        true => Ok(value),
        false => reader.wrong("nothing more is expected"),
    }
}

/// Values within values, at most.
const DEPTH: usize = 16;

struct Reader<'t> {
    text: &'t str,
    at: usize,
    depth: usize,
}

impl Reader<'_> {
    fn wrong<T>(&self, words: &str) -> Result<T, String> {
        let before = &self.text[..self.at];
        let line = before.matches('\n').count() + 1;
        let column = before.rsplit('\n').next().map_or(0, |rest| rest.chars().count()) + 1;
        Err(format!("line {line}, column {column}: {words}"))
    }

    fn space(&mut self) {
        let rest = &self.text[self.at..];
        self.at += rest.len() - rest.trim_start_matches([' ', '\t', '\n', '\r']).len();
    }

    fn takes(&mut self, words: &str) -> bool {
        let found = self.text[self.at..].starts_with(words);
        self.at += if found { words.len() } else { 0 };
        found
    }

    fn value(&mut self) -> Result<Value, String> {
        self.space();
        if self.depth == DEPTH {
            return self.wrong("values are nested too deep");
        }
        for (word, value) in [("null", Null), ("true", True(true)), ("false", True(false))] {
            if self.takes(word) {
                return Ok(value);
            }
        }
        match self.text[self.at..].chars().next() {
            Some('"') => self.string().map(Text),
            Some('[') => self.list(),
            Some('{') => self.object(),
            Some('-' | '0'..='9') => self.number(),
            _ => self.wrong("a value is expected"),
        }
    }

    fn number(&mut self) -> Result<Value, String> {
        let rest = &self.text[self.at..];
        let end = rest.find(|c: char| !"-+.eE0123456789".contains(c)).unwrap_or(rest.len());
        match rest[..end].parse::<i64>() {
            Ok(number) if number.to_string() == rest[..end] => {
                self.at += end;
                Ok(Number(number))
            }
            _ => self.wrong("numbers are whole here"),
        }
    }

    /// What stands in brackets, with commas between.
    fn within(&mut self, close: &str, mut part: impl FnMut(&mut Self) -> Result<(), String>) -> Result<(), String> {
        self.at += 1;
        self.depth += 1;
        self.space();
        let mut done = self.takes(close);
        while !done {
            part(self)?;
            self.space();
            done = self.takes(close);
            if !done && !self.takes(",") {
                return self.wrong("a comma is expected, or the end");
            }
        }
        self.depth -= 1;
        Ok(())
    }

    fn list(&mut self) -> Result<Value, String> {
        let mut values = Vec::new();
        self.within("]", |reader| {
            values.push(reader.value()?);
            Ok(())
        })?;
        Ok(List(values))
    }

    fn object(&mut self) -> Result<Value, String> {
        let mut fields: Vec<(String, Value)> = Vec::new();
        self.within("}", |reader| {
            reader.space();
            let name = reader.string()?;
            reader.space();
            if !reader.takes(":") {
                return reader.wrong("a colon is expected");
            }
            if fields.iter().any(|(other, _)| *other == name) {
                return reader.wrong("this field was there before");
            }
            fields.push((name, reader.value()?));
            Ok(())
        })?;
        Ok(Object(fields))
    }

    fn string(&mut self) -> Result<String, String> {
        if !self.takes("\"") {
            return self.wrong("a text in quotes is expected");
        }
        let mut words = String::new();
        loop {
            let Some(c) = self.text[self.at..].chars().next() else { return self.wrong("a text has no end") };
            self.at += c.len_utf8();
            match c {
                '"' => return Ok(words),
                '\\' => words.push(self.escaped()?),
                c if c < ' ' => return self.wrong("a text has no line breaks and no tabs but as \\\\n and \\\\t"),
                c => words.push(c),
            }
        }
    }

    fn escaped(&mut self) -> Result<char, String> {
        let Some(c) = self.text[self.at..].chars().next() else { return self.wrong("a text has no end") };
        self.at += c.len_utf8();
        Ok(match c {
            '"' | '\\' | '/' => c,
            'b' => '\u{8}',
            'f' => '\u{c}',
            'n' => '\n',
            'r' => '\r',
            't' => '\t',
            'u' => return self.unit(),
            _ => return self.wrong("there is no such escape"),
        })
    }

    /// Four digits, or two times four for a character beyond them.
    fn unit(&mut self) -> Result<char, String> {
        let four = |reader: &mut Self| {
            let digits = reader
                .text
                .get(reader.at..reader.at + 4)
                .filter(|digits| digits.bytes().all(|byte| byte.is_ascii_hexdigit()));
            let unit = digits.and_then(|digits| u16::from_str_radix(digits, 16).ok());
            reader.at += if unit.is_some() { 4 } else { 0 };
            unit
        };
        let Some(first) = four(self) else { return self.wrong("four digits are expected") };
        let mut units = vec![first];
        if (0xD800..0xDC00).contains(&first) && self.takes("\\u") {
            units.extend(four(self));
        }
        match char::decode_utf16(units).next() {
            Some(Ok(c)) => Ok(c),
            _ => self.wrong("this is half a character"),
        }
    }
}

#[cfg(test)]
mod tests {
    use super::*;

    #[test]
    fn what_is_written_is_read() {
        let value = object(vec![
            ("a", List(vec![Null, True(true), Number(-5), text("x \"y\" \\ \n \u{1} é 🙂")])),
            ("b", object(vec![])),
            ("c", List(vec![])),
        ]);
        assert_eq!(read(&value.lines()), Ok(value.clone()));
        assert_eq!(read(&value.line()), Ok(value.clone()));
        assert!(!value.line().contains('\n'));
        assert_eq!(read("\"\\u00e9 \\ud83d\\ude42\""), Ok(text("é 🙂")));
        for (wrong, words) in [
            ("{\"a\": 1.5}", "line 1, column 7: numbers are whole here"),
            ("[1,\n 2 3]", "line 2, column 4: a comma is expected, or the end"),
            ("{\"a\": 1, \"a\": 2}", "line 1, column 14: this field was there before"),
            ("[1] x", "line 1, column 5: nothing more is expected"),
            ("\"abc", "line 1, column 5: a text has no end"),
            ("\"\\ud83d\"", "line 1, column 8: this is half a character"),
            ("", "line 1, column 1: a value is expected"),
        ] {
            assert_eq!(read(wrong), Err(words.to_string()), "{wrong}");
        }
        assert!(read(&"[".repeat(40)).is_err());
    }
}
