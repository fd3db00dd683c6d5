//! The words of the command line.

use std::ffi::OsString;

use ward_reader::hints::near;

use crate::error::Error;

/// What `--help` prints.
pub const HELP: &str = "\
ward: a scheduler's text in, a judged plan out

  ward FILE..                 answers the texts; the checker judges each answer
  ward check FILE..           only reads the texts, and tells every mistake with its place
  ward judge FILE ANSWERS     has the checker judge answer records from another engine, in bytes
                              or in hexadecimal
  ward compare FILE FILE      which rules differ, both spans, and which moments move
  ward record FILE            the problem record of a text, in hexadecimal
  ward text RECORD            a problem record as a text

FILE is a path, or - for standard input. docs/SCHEDULERS.md teaches the text; it can be JSON too,
as docs/ward-text.schema.json tells.

  --json, --csv, --html       for programs, for tables, or a sheet to open or print
  --json=lines                a line a text; docs/ward.schema.json tells the fields
  --csv=excel                 with ; between cells, and a mark that spreadsheets read as UTF-8
  -o, --output FILE           writes there, and not to standard output, which is - here too; a sheet
                              or table that is there stays where a text has a mistake
  --quick                     leaves out the earliest and latest times
  --what-if                   what the span would be if a rule behind it were lifted, or eased by 5,
                              10 and 15 minutes
  --wall                      with --html: the first page of each span alone, for the wall
  --plain                     no signs beyond ASCII in the timeline
  --status                    a status of its own for none, bottomless, and a ward that is shut
  --binary                    with record: the bytes themselves
  --progress                  a line a file on standard error; it comes by itself where several
                              files are read and standard error alone is a terminal
  -q, --quiet                 no warnings and no progress
  --                          what follows is a file
  -h, --help, -V, --version

Mistakes show what can be written in their place, twenty of them at most. On a terminal there are
colours, unless NO_COLOR is set.

Statuses
  0  every answer was accepted, and is the one that its text expects, if it says so
  1  a text has a mistake, or a file cannot be read or answered
  2  the words are not understood, or -o names a file that is read
  3  the checker does not accept an answer
  4  every answer was accepted, and a text expects another
  5  the output cannot be written
  6  with --status: there is no span
  7  with --status: a span is bottomless
  8  with --status: the ward is shut at a planned time, or no plan within 14 days keeps the opening hours
Of several, 3 comes before 1, 1 before 4, and 4 before 8, 6 and 7.
";

#[derive(Clone, Copy, Debug, Default, PartialEq, Eq)]
pub enum Command {
    #[default]
    Answer,
    Check,
    Judge,
    Compare,
    Record,
    Text,
    Help,
    Version,
}

/// What the output is.
#[derive(Clone, Copy, Debug, Default, PartialEq, Eq)]
pub enum Form {
    #[default]
    Table,
    Json,
    Lines,
    Csv,
    Excel,
    Html,
}

#[derive(Debug, Default)]
pub struct Words {
    pub command: Command,
    pub files: Vec<OsString>,
    pub form: Form,
    pub output: Option<OsString>,
    pub quick: bool,
    pub what_if: bool,
    pub wall: bool,
    pub status: bool,
    pub plain: bool,
    pub binary: bool,
    pub progress: bool,
    pub quiet: bool,
}

/// Reads the words behind the program's name.
pub fn read(arguments: impl Iterator<Item = OsString>) -> Result<Words, Error> {
    let mut words = Words::default();
    let mut arguments = arguments.peekable();
    if let Some(command) = arguments.peek().and_then(|first| command(&first.to_string_lossy())) {
        words.command = command;
        arguments.next();
    }
    while let Some(argument) = arguments.next() {
        let text = argument.to_string_lossy().into_owned();
        match text.as_str() {
            "--" => {
                words.files.extend(arguments.by_ref());
            }
            "-o" | "--output" => {
                let file = arguments.next().ok_or_else(|| wrong(format!("a file is missing behind '{text}'")))?;
                set(&mut words.output, file, "one output is enough")?;
            }
            _ if text.starts_with("--output=") => {
                set(&mut words.output, text["--output=".len()..].into(), "one output is enough")?
            }
            _ if text.starts_with('-') && text != "-" => option(&mut words, &text)?,
            _ => words.files.push(argument),
        }
    }
    words.output = words.output.filter(|file| file != "-");
    meant(&words)?;
    fits(&words)?;
    Ok(words)
}

/// Words that are nearly a command, and no file: `ward chek day.txt`, `ward help`.
fn meant(words: &Words) -> Result<(), Error> {
    let Some(first) = words.files.first().filter(|_| words.command == Command::Answer) else { return Ok(()) };
    let text = first.to_string_lossy();
    let plain = !text.is_empty() && text.chars().all(|c| c.is_ascii_alphabetic());
    if !plain || std::path::Path::new(first).exists() {
        return Ok(());
    }
    let small = text.to_lowercase();
    let rest: Vec<_> = words.files[1..].iter().map(|file| file.to_string_lossy()).collect();
    let line = match small.as_str() {
        "help" | "version" => format!("ward --{small}"),
        _ => match near(&small, ["check", "compare", "judge", "record", "text", "help", "version"].into_iter()) {
            Some(command @ ("help" | "version")) => format!("ward --{command}"),
            Some(command) if !rest.is_empty() => format!("ward {command} {}", rest.join(" ")),
            _ => return Ok(()),
        },
    };
    Err(wrong(format!("there is no file '{text}': write '{line}'")))
}

fn wrong(message: impl Into<String>) -> Error {
    Error::Words(message.into())
}

fn set(place: &mut Option<OsString>, value: OsString, message: &str) -> Result<(), Error> {
    match place.replace(value) {
        None => Ok(()),
        Some(_) => Err(wrong(message)),
    }
}

fn command(word: &str) -> Option<Command> {
    Some(match word {
        "check" => Command::Check,
        "judge" => Command::Judge,
        "compare" => Command::Compare,
        "record" => Command::Record,
        "text" => Command::Text,
        _ => return None,
    })
}

fn option(words: &mut Words, text: &str) -> Result<(), Error> {
    let form = match text {
        "--json" => Some(Form::Json),
        "--json=lines" => Some(Form::Lines),
        "--csv" => Some(Form::Csv),
        "--csv=excel" => Some(Form::Excel),
        "--html" => Some(Form::Html),
        _ => None,
    };
    if let Some(form) = form {
        if ![Form::Table, form].contains(&words.form) {
            return Err(wrong("one of --json, --csv and --html is enough"));
        }
        words.form = form;
        return Ok(());
    }
    match text {
        "--quick" => words.quick = true,
        "--what-if" => words.what_if = true,
        "--wall" => words.wall = true,
        "--status" => words.status = true,
        "--plain" => words.plain = true,
        "--binary" => words.binary = true,
        "--progress" => words.progress = true,
        "-q" | "--quiet" => words.quiet = true,
        "-h" | "--help" => words.command = Command::Help,
        "-V" | "--version" => words.command = Command::Version,
        _ => return Err(wrong(format!("'{text}' is not understood"))),
    }
    Ok(())
}

/// Whether there are as many files as a command takes, and no option that it does not know.
fn fits(words: &Words) -> Result<(), Error> {
    let count = words.files.len();
    let good = match words.command {
        Command::Answer | Command::Check => count > 0,
        Command::Judge | Command::Compare => count == 2,
        Command::Record | Command::Text => count == 1,
        Command::Help | Command::Version => true,
    };
    if !good {
        return Err(wrong(match words.command {
            Command::Judge => "'judge' takes a text and a file of answers",
            Command::Compare => "'compare' takes two texts",
            Command::Record | Command::Text => "one file is expected",
            _ => "a file is missing",
        }));
    }
    if words.files.iter().filter(|file| *file == "-").count() > 1 {
        return Err(wrong("standard input can be read once"));
    }
    let bare = [Command::Record, Command::Text].contains(&words.command);
    if bare && words.form != Form::Table
        || words.command == Command::Compare && ![Form::Table, Form::Json].contains(&words.form)
        || words.command == Command::Check && [Form::Csv, Form::Excel, Form::Html].contains(&words.form)
    {
        return Err(wrong("this command has no such output"));
    }
    match words.binary && words.command != Command::Record {
        true => Err(wrong("'--binary' goes with 'record'")),
        false => Ok(()),
    }
}

#[cfg(test)]
mod tests {
    use super::*;

    fn read_all(words: &str) -> Result<Words, Error> {
        read(words.split_whitespace().map(OsString::from))
    }

    #[test]
    fn words_are_read() {
        let words = read_all("check --json a.txt -- --html").expect("good words");
        assert_eq!((words.command, words.form), (Command::Check, Form::Json));
        assert_eq!(words.files, ["a.txt", "--html"]);
        assert_eq!(read_all("./check").expect("a file").command, Command::Answer);
        assert_eq!(read_all("--output=x -").expect("a file").output, Some("x".into()));
        assert_eq!(read_all("-o - a").expect("a file").output, None);
        assert_eq!(read_all("--help").expect("no file").command, Command::Help);
        assert_eq!(read_all("check --version").expect("no file").command, Command::Version);
    }

    #[test]
    fn other_words_are_not_understood() {
        for words in [
            "",
            "check",
            "judge a",
            "record a b",
            "--jsn a",
            "-x a",
            "a -o",
            "- -",
            "--json --csv a",
            "record --json a",
            "check --html a",
            "a --binary",
            "-o x -o y a",
            "chek a.txt",
            "help",
        ] {
            assert!(read_all(words).is_err(), "{words}");
        }
    }
}
