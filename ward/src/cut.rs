//! Files of records.

/// Cuts so many records, one after another, by their length fields. The last is all that is left, and so is one whose field is
/// not whole or reaches past the end: the checker sees every byte.
pub fn records(mut records: &[u8], count: usize) -> Vec<&[u8]> {
    let mut parts = Vec::new();
    for _ in 1..count {
        let field = records.first_chunk().map_or(usize::MAX, |field| u32::from_le_bytes(*field) as usize);
        let (part, rest) = records.split_at(field.saturating_add(4).min(records.len()));
        parts.push(part);
        records = rest;
    }
    parts.push(records);
    parts
}

/// All records of a file, one after another, by their length fields. A file with no bytes has one, that of an idle day.
pub fn all(mut records: &[u8]) -> Vec<&[u8]> {
    let mut parts = Vec::new();
    while !records.is_empty() || parts.is_empty() {
        let field = records.first_chunk().map_or(usize::MAX, |field| u32::from_le_bytes(*field) as usize);
        let (part, rest) = records.split_at(field.saturating_add(4).min(records.len()));
        parts.push(part);
        records = rest;
    }
    parts
}

/// Bytes that are written in hexadecimal; a line with none is the record of an idle day.
pub fn from_hex(text: &[u8]) -> Option<Vec<u8>> {
    let digits: Vec<u8> = text.iter().copied().filter(|byte| !byte.is_ascii_whitespace()).collect();
    if text.is_empty() || digits.len() % 2 == 1 {
        return None;
    }
    let digit = |byte: u8| (byte as char).to_digit(16);
    digits.chunks(2).map(|pair| Some((16 * digit(pair[0])? + digit(pair[1])?) as u8)).collect()
}

#[cfg(test)]
mod tests {
    use super::*;

    #[test]
    fn records_are_cut_by_their_length_fields() {
        let all = [1, 0, 0, 0, 7, 0, 0, 0, 0, 9];
        assert_eq!(records(&all, 1), [&all[..]]);
        assert_eq!(records(&all, 2), [&all[..5], &all[5..]]);
        assert_eq!(records(&all, 3), [&all[..5], &all[5..9], &all[9..]]);
        // A field that reaches past the end, or is not whole, ends the cutting.
        assert_eq!(records(&all, 4), [&all[..5], &all[5..9], &all[9..], &[]]);
        assert_eq!(records(&[255; 6], 3), [&[255; 6][..], &[], &[]]);
    }

    #[test]
    fn all_records_of_a_file_are_cut() {
        let all_of = |bytes: &[u8]| all(bytes).iter().map(|part| part.len()).collect::<Vec<_>>();
        assert_eq!(all_of(&[1, 0, 0, 0, 7, 0, 0, 0, 0]), [5, 4]);
        assert_eq!(all_of(&[]), [0]);
        assert_eq!(all_of(&[255; 6]), [6]);
    }

    #[test]
    fn hexadecimal_is_read() {
        assert_eq!(from_hex(b"0E 00\nff\n"), Some(vec![14, 0, 255]));
        assert_eq!(from_hex(b"\n"), Some(Vec::new()));
        for text in [&b""[..], b"0", b"0G", b"\x0E\0\0\0"] {
            assert_eq!(from_hex(text), None);
        }
    }
}
