//! What there is to say about a text, with its place.

use std::fmt::Write;

pub use crate::fault::Fix;

/// Whether a text can be used in spite of a remark.
#[derive(Clone, Copy, Debug, PartialEq, Eq)]
pub enum Weight {
    Mistake,
    Warning,
}

/// A place in a text. Lines and columns count from 1, columns in characters.
#[derive(Clone, Copy, Debug, PartialEq, Eq, PartialOrd, Ord)]
pub struct Place {
    pub line: usize,
    pub column: usize,
    /// How many characters are meant, at least 1.
    pub width: usize,
}

/// A mistake or a warning.
#[derive(Clone, Debug, PartialEq, Eq)]
pub struct Remark {
    pub weight: Weight,
    pub place: Place,
    pub message: String,
    /// What there is to know, in words.
    pub hint: Option<String>,
    /// What can be written in the line's stead: one reading of it, or several.
    pub fixes: Vec<Fix>,
}

/// The most characters of a line that a remark shows.
const SHOWN: usize = 100;

impl Remark {
    /// The words before the lines of a reading.
    pub fn lead(&self, fix: &Fix) -> String {
        let write = match (self.fixes.len(), fix.lines.len()) {
            (1, 1) => "write",
            (1, _) => "write, each on its line",
            (_, 1) => "either write",
            _ => "either write, each on its line",
        };
        let write = if self.fixes.first() == Some(fix) { write.into() } else { write.replace("either", "or") };
        match fix.says.is_empty() {
            true => write,
            false => format!("{write} ({})", fix.says),
        }
    }

    /// `FILE:LINE:COLUMN: mistake: message`, the line itself, a caret under the place, and the hint.
    pub fn in_file(&self, file: &str, lines: &[String]) -> String {
        let Place { line, column, width } = self.place;
        let word = match self.weight {
            Weight::Mistake => "mistake",
            Weight::Warning => "warning",
        };
        let mut shown = format!("{}:{line}:{column}: {word}: {}\n", clean(file), clean(&cut(&self.message)));
        let number = line.to_string();
        let margin = " ".repeat(number.len());
        let (text, before, under) = part(lines.get(line - 1).map_or("", String::as_str), column, width);
        let _ = writeln!(shown, "  {number} | {text}");
        let _ = writeln!(shown, "  {margin} | {before}{}", "^".repeat(under));
        if let Some(hint) = &self.hint {
            let _ = writeln!(shown, "  {margin} = {}", clean(&cut(hint)));
        }
        for fix in &self.fixes {
            let _ = writeln!(shown, "  {margin} = {}:", clean(&self.lead(fix)));
            for line in &fix.lines {
                let _ = writeln!(shown, "  {margin}     {}", clean(line));
            }
        }
        shown
    }
}

/// Words that are not too long to be read.
fn cut(words: &str) -> String {
    match words.char_indices().nth(6 * SHOWN) {
        Some((end, _)) => format!("{}...", &words[..end]),
        None => words.into(),
    }
}

/// The part of a line to show, what stands before the carets, and how many carets. Tabs become spaces.
fn part(line: &str, column: usize, width: usize) -> (String, String, usize) {
    let characters: Vec<char> = clean(line).chars().map(|c| if c == '\t' { ' ' } else { c }).collect();
    let place = (column - 1).min(characters.len());
    let from = if characters.len() <= SHOWN { 0 } else { place.saturating_sub(SHOWN / 2) };
    let to = characters.len().min(from + SHOWN);
    let dots = |cut: bool| if cut { "..." } else { "" };
    let text: String = characters[from..to].iter().collect();
    let shown = format!("{}{text}{}", dots(from > 0), dots(to < characters.len()));
    let before = " ".repeat(dots(from > 0).len() + place - from);
    let under = width.clamp(1, (to.max(place + 1)) - place);
    (shown, before, under)
}

/// A text without characters that steer a terminal.
pub fn clean(text: &str) -> String {
    text.chars().map(|c| if c.is_control() && c != '\t' { '\u{FFFD}' } else { c }).collect()
}

#[cfg(test)]
mod tests {
    use super::*;

    fn shown(line: &str, column: usize, width: usize) -> String {
        let place = Place { line: 1, column, width };
        let remark = Remark {
            weight: Weight::Mistake,
            place,
            message: "wrong".into(),
            hint: Some("right".into()),
            fixes: Vec::new(),
        };
        remark.in_file("day.txt", &[line.into()])
    }

    #[test]
    fn the_caret_stands_under_its_place() {
        assert_eq!(
            shown("a <= bde + 5", 6, 3),
            "day.txt:1:6: mistake: wrong\n  1 | a <= bde + 5\n    |      ^^^\n    = right\n"
        );
        assert_eq!(shown("", 1, 1), "day.txt:1:1: mistake: wrong\n  1 | \n    | ^\n    = right\n");
        // Columns are characters, and a tab is one of them.
        assert!(shown("\té <= x", 6, 1).contains("\n  1 |  é <= x\n    |      ^\n"), "{}", shown("\té <= x", 6, 1));
    }

    #[test]
    fn long_lines_and_strange_characters_are_cut_down() {
        let long = format!("{}bad{}", "x".repeat(500), "y".repeat(500));
        let text = shown(&long, 501, 3);
        let lines: Vec<&str> = text.lines().collect();
        let place = lines[2].find('^').expect("a caret");
        assert_eq!(&lines[1][place..place + 3], "bad");
        assert!(lines[1].len() < 120, "{text}");
        assert!(!shown("a \u{1b}[2J b", 3, 1).contains('\u{1b}'));
        // A place behind the end, and carets that reach behind it.
        assert!(shown("ab", 9, 5).contains("|   ^\n"), "{}", shown("ab", 9, 5));
    }
}
