//! Words on a page that cannot be taken for its marks.

/// Words of a page.
pub fn safe(words: &str) -> String {
    let mut text = String::new();
    for c in ward_reader::remark::clean(words).chars() {
        match c {
            '&' => text.push_str("&amp;"),
            '<' => text.push_str("&lt;"),
            '>' => text.push_str("&gt;"),
            '"' => text.push_str("&quot;"),
            c => text.push(c),
        }
    }
    text
}

/// A text of the page's style, in quotes.
pub fn quoted(words: &str) -> String {
    let mut text = String::from("\"");
    for c in ward_reader::remark::clean(words).chars() {
        match c {
            '"' | '\\' | '<' | '>' | '&' => text.push_str(&format!("\\{:06x} ", c as u32)),
            c => text.push(c),
        }
    }
    text + "\""
}
