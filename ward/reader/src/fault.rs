//! What is wrong with a part of a line, and what could be written in the line's place.

/// A reading of a line: lines that can be copied into its place.
#[derive(Clone, Debug, PartialEq, Eq)]
pub struct Fix {
    /// What the lines say, in a few words; empty where there is nothing to tell apart.
    pub says: String,
    pub lines: Vec<String>,
}

/// What is wrong with a part of a line; places count bytes of the line.
#[derive(Clone, Debug, PartialEq, Eq)]
pub struct Fault {
    pub from: usize,
    pub to: usize,
    pub message: String,
    /// What there is to know, in words.
    pub hint: Option<String>,
    /// What can be written in the line's place. The reader shows those alone that it takes itself.
    pub fixes: Vec<Fix>,
}

impl Fault {
    pub fn new(from: usize, to: usize, message: impl Into<String>) -> Fault {
        Fault { from, to, message: message.into(), hint: None, fixes: Vec::new() }
    }

    pub fn hint(self, hint: impl Into<String>) -> Fault {
        Fault { hint: Some(hint.into()), ..self }
    }

    /// One line more that can be written in place of this one.
    pub fn fix(self, says: impl Into<String>, line: impl Into<String>) -> Fault {
        self.fixes(says, vec![line.into()])
    }

    /// Several lines that can be written in place of this one.
    pub fn fixes(mut self, says: impl Into<String>, lines: Vec<String>) -> Fault {
        self.fixes.push(Fix { says: says.into(), lines });
        self
    }
}

/// A line with a part of it written otherwise.
pub fn with(line: &str, from: usize, to: usize, part: &str) -> String {
    format!("{}{part}{}", &line[..from], &line[to.max(from)..])
}

/// A line with a part of it taken out, and the spaces around it with it.
pub fn without(line: &str, from: usize, to: usize) -> String {
    let (before, after) = (line[..from].trim_end(), line[to.max(from)..].trim_start());
    match before.is_empty() || after.is_empty() {
        true => format!("{before}{after}"),
        false => format!("{before} {after}"),
    }
}
