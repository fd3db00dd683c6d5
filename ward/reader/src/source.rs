//! A file's bytes as lines.

use crate::limits;
use crate::remark::{Place, Remark, Weight};

/// The lines of a text, and what there is to say about its bytes.
pub struct Source {
    pub lines: Vec<String>,
    pub remarks: Vec<Remark>,
    /// Whether the lines can be read as a text at all.
    pub readable: bool,
}

/// Cuts bytes into lines. A line that is not UTF-8 is taken as Latin-1, so that the rest of it is still looked at.
pub fn lines(bytes: &[u8]) -> Source {
    let mut source = Source { lines: Vec::new(), remarks: Vec::new(), readable: true };
    if let Some((message, hint)) = no_text(bytes) {
        source.remarks.push(remark(Weight::Mistake, 1, 1, message.into(), hint));
        source.lines.push(String::new());
        source.readable = false;
        return source;
    }
    let body = bytes.strip_prefix(b"\xEF\xBB\xBF").unwrap_or(bytes);
    if body.len() < bytes.len() {
        let hint = "it does no harm; \"UTF-8 without BOM\" is the form without it";
        let message = "the file starts with a byte order mark (BOM), which is passed over";
        source.remarks.push(remark(Weight::Warning, 1, 1, message.into(), hint));
    }
    for (number, line) in (1..).zip(body.split(|&byte| byte == b'\n')) {
        let line = line.strip_suffix(b"\r").unwrap_or(line);
        let text = match std::str::from_utf8(line) {
            Ok(text) => text.into(),
            Err(error) => {
                source.remarks.push(not_utf8(number, line, error.valid_up_to()));
                line.iter().map(|&byte| byte as char).collect()
            }
        };
        source.lines.push(text);
    }
    if source.lines.len() > 1 && source.lines.last().is_some_and(String::is_empty) {
        source.lines.pop();
    }
    source
}

/// Why bytes are no text, and what to do about it.
fn no_text(bytes: &[u8]) -> Option<(&'static str, &'static str)> {
    if bytes.len() > limits::TEXT {
        return Some(("the text has more than 1,000,000 bytes", "is this the right file?"));
    }
    if bytes.starts_with(b"\xFF\xFE") || bytes.starts_with(b"\xFE\xFF") {
        return Some(("the file is in UTF-16", "save it as UTF-8"));
    }
    let inner = bytes.strip_suffix(b"\r").unwrap_or(bytes);
    if inner.contains(&b'\r') && !inner.contains(&b'\n') {
        let hint = "save it with the line ends of Windows or Unix";
        return Some(("the lines end with the character U+000D alone, as on old Macs", hint));
    }
    if bytes.contains(&0) {
        return Some(("this is no text: the file holds a byte 0", "`ward text FILE` tells a problem record as a text"));
    }
    None
}

fn not_utf8(number: usize, line: &[u8], place: usize) -> Remark {
    let column = String::from_utf8_lossy(&line[..place]).chars().count() + 1;
    let byte = line[place];
    let message = format!("the byte {byte:02X} is not UTF-8");
    let hint = match byte {
        0xA0..=0xFF => format!("in Latin-1 it is '{}': save the file as UTF-8", byte as char),
        _ => "save the file as UTF-8".into(),
    };
    remark(Weight::Mistake, number, column, message, &hint)
}

fn remark(weight: Weight, line: usize, column: usize, message: String, hint: &str) -> Remark {
    Remark { weight, place: Place { line, column, width: 1 }, message, hint: Some(hint.into()), fixes: Vec::new() }
}

#[cfg(test)]
mod tests {
    use super::*;

    #[test]
    fn lines_end_as_on_any_system() {
        for bytes in [&b"a\nb\n"[..], b"a\r\nb\r\n", b"a\nb", b"\xEF\xBB\xBFa\nb\n"] {
            assert_eq!(lines(bytes).lines, ["a", "b"], "{bytes:?}");
        }
        assert_eq!(lines(b"").lines, [""]);
        assert_eq!(lines(b"\n\n").lines, ["", ""]);
    }

    #[test]
    fn bytes_that_are_no_text_are_told() {
        let first = |bytes: &[u8]| lines(bytes).remarks.remove(0);
        let bom = first(b"\xEF\xBB\xBFa\n");
        assert_eq!((bom.weight, bom.place.line), (Weight::Warning, 1));
        let latin = first("ok\nK\u{FC}che\n".chars().map(|c| c as u8).collect::<Vec<_>>().as_slice());
        assert_eq!((latin.weight, latin.place.line, latin.place.column), (Weight::Mistake, 2, 2));
        assert!(latin.hint.is_some_and(|hint| hint.contains("'ü'")));
        for bytes in [&b"a\rb\r"[..], b"\xFF\xFEa\0", b"\xFE\xFF\0a", b"\x0E\0\0\0\x01\0", &[b'a'; 1_000_001]] {
            assert!(!lines(bytes).readable);
            assert_eq!(first(bytes).weight, Weight::Mistake);
        }
    }
}
