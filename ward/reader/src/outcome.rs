//! What a text expects of a span, in the verdict program's words: `least 45`, `bottomless` or `none`.

use std::fmt;

#[derive(Clone, Copy, Debug, PartialEq, Eq)]
pub enum Expected {
    Least(i32),
    Bottomless,
    None,
}

impl fmt::Display for Expected {
    fn fmt(&self, out: &mut fmt::Formatter) -> fmt::Result {
        match self {
            Expected::Least(span) => write!(out, "least {span}"),
            Expected::Bottomless => write!(out, "bottomless"),
            Expected::None => write!(out, "none"),
        }
    }
}
