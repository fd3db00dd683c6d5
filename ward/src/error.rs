//! What goes wrong in the tool, as one type, and the status of each of its endings. Mistakes of a text are no errors here: they are
//! remarks with their places, and the reader collects all of them.

use std::fmt;
use std::io::{self, ErrorKind};

use span::Refusal;

use crate::answer::Ending;

/// What goes wrong. Its words hold those of its cause.
#[derive(Debug)]
pub enum Error {
    /// The words of the command line are not understood, for this reason.
    Words(String),
    /// The output would be written over this file, which is read.
    Over(String),
    /// The output cannot be written.
    Unwritten(io::Error),
    /// A file cannot be read.
    Unread(io::Error),
    /// A text as JSON cannot be read, for this reason.
    Json(String),
    /// The archive refuses a record.
    Refused(Refusal),
    /// The checker does not accept an answer to a question that the tool asks by itself.
    NotAccepted(Refusal),
    /// The checker accepts a least span, and the record has no plan.
    NoPlan,
    /// A record that the archive takes cannot be told as a text.
    NoText,
    /// Several records that are not those of one text.
    Several,
    /// What is wrong with the file of this name.
    In(String, Box<Error>),
}

impl fmt::Display for Error {
    fn fmt(&self, out: &mut fmt::Formatter) -> fmt::Result {
        match self {
            Error::Words(message) => write!(out, "{message}; `ward --help` tells the words"),
            Error::Over(file) => write!(out, "the output would be written over '{file}', which is read"),
            Error::Unwritten(error) => write!(out, "the output cannot be written: {error}"),
            Error::Unread(error) => write!(out, "{error}"),
            Error::Json(words) => write!(out, "as JSON this is no text: {words}"),
            Error::Refused(refusal) => write!(out, "the archive says: {refusal}"),
            Error::NotAccepted(refusal) => write!(out, "the checker does not accept an answer: {refusal}"),
            Error::NoPlan => write!(out, "the checker accepted a least span, and the record has no plan"),
            Error::NoText => write!(out, "the record cannot be told as a text"),
            Error::Several => write!(out, "these are several records, and no text gives all of them"),
            Error::In(file, error) => write!(out, "{file}: {error}"),
        }
    }
}

impl std::error::Error for Error {}

impl Error {
    /// The line that tells it on standard error. Whoever closed the output does not want to read more.
    pub fn line(&self) -> String {
        match self {
            Error::Unwritten(error) if error.kind() == ErrorKind::BrokenPipe => String::new(),
            Error::In(..) => format!("{self}\n"),
            _ => format!("ward: {self}\n"),
        }
    }
}

/// The status that the tool ends with, as `words::HELP` tells them.
pub fn status(done: &Result<Ending, Error>) -> u8 {
    match done {
        Ok(Ending::Good) => 0,
        Ok(Ending::Fault) => 1,
        Err(Error::Unread(_) | Error::Json(_) | Error::Refused(_) | Error::NotAccepted(_)) => 1,
        Err(Error::NoPlan | Error::NoText | Error::Several | Error::In(..)) => 1,
        Err(Error::Words(_) | Error::Over(_)) => 2,
        Ok(Ending::NotAccepted) => 3,
        Ok(Ending::Unexpected) => 4,
        Err(Error::Unwritten(_)) => 5,
        Ok(Ending::None) => 6,
        Ok(Ending::Bottomless) => 7,
        Ok(Ending::Shut) => 8,
    }
}

#[cfg(test)]
mod tests {
    use super::*;
    use crate::words::HELP;

    #[test]
    fn an_error_has_its_line_and_its_status() {
        let refusal = || span::solve(&[0], &mut []).expect_err("too short");
        let gone = || io::Error::other("it is gone");
        for (error, line, expected) in [
            (Error::Words("a file is missing".into()), "ward: a file is missing; `ward --help` tells the words\n", 2),
            (Error::Over("a".into()), "ward: the output would be written over 'a', which is read\n", 2),
            (Error::Unwritten(gone()), "ward: the output cannot be written: it is gone\n", 5),
            (Error::Unwritten(ErrorKind::BrokenPipe.into()), "", 5),
            (Error::In("a".into(), Box::new(Error::Unread(gone()))), "a: it is gone\n", 1),
            (Error::In("a".into(), Box::new(Error::NoText)), "a: the record cannot be told as a text\n", 1),
            (
                Error::In("a".into(), Box::new(Error::Refused(refusal()))),
                &format!("a: the archive says: {}\n", refusal()),
                1,
            ),
        ] {
            assert_eq!(error.line(), line);
            assert_eq!(status(&Err(error)), expected, "{line}");
        }
    }

    #[test]
    fn the_help_tells_every_status() {
        let endings = [
            Ending::Good,
            Ending::Unexpected,
            Ending::Fault,
            Ending::NotAccepted,
            Ending::None,
            Ending::Bottomless,
            Ending::Shut,
        ]
        .map(Ok);
        let errors = [Error::Words(String::new()), Error::Unwritten(ErrorKind::Other.into())].map(Err);
        let mut statuses: Vec<u8> = endings.iter().chain(&errors).map(status).collect();
        statuses.sort();
        assert_eq!(statuses, [0, 1, 2, 3, 4, 5, 6, 7, 8]);
        let told = HELP.split("Statuses\n").nth(1).expect("the statuses").lines().take(9);
        for (line, number) in told.zip(statuses) {
            assert!(line.starts_with(&format!("  {number}  ")), "{line}");
        }
    }
}
