//! The front door of the span engine: a scheduler's text in, a judged plan out.
//!
//! The tool is outside the proofs: nothing shows that a text means what its writer thinks, or that the words printed here say
//! what a record holds. What is proved is about records, and all that concerns them is asked of the archive: answers,
//! verdicts, refusals, hours and opening hours. `words` has the commands, `error` the statuses.

mod answer;
mod archive;
mod behind;
mod cases;
mod chart;
mod choice;
mod compare;
mod csv;
mod cut;
mod error;
mod grounds;
mod hours;
mod html;
mod json;
mod json_text;
mod kept;
mod laws;
mod made;
mod opening;
mod order;
mod output;
mod page;
#[cfg(test)]
mod plain;
mod reasons;
mod remarked;
mod room;
mod rule_words;
mod scale;
mod settle;
mod terminal;
mod times;
mod told;
#[cfg(test)]
mod tried;
mod value;
mod wall;
mod what_if;
mod why;
mod words;

// What `ward --version` tells.
mod version;

use std::ffi::OsStr;
use std::fs::File;
use std::io::{self, IsTerminal, Read, Write};
use std::process::ExitCode;

use answer::{Ending, Report, Wishes};
use error::Error;
use terminal::Look;
use ward_reader::{limits, record, shown, Sheet, Weight};
use words::{Command, Form, Words};

/// Tells something on standard error; if that is closed, nobody is told.
fn tell(message: &str) {
    let _ = io::stderr().write_all(message.as_bytes());
}

fn main() -> ExitCode {
    let done = words::read(std::env::args_os().skip(1)).and_then(|words| run(&words));
    if let Err(error) = &done {
        tell(&error.line());
    }
    ExitCode::from(error::status(&done))
}

/// Does what the words ask for.
fn run(words: &Words) -> Result<Ending, Error> {
    if let Some(path) = words.files.iter().find(|path| words.output.as_ref().is_some_and(|output| same(path, output))) {
        return Err(Error::Over(name(path)));
    }
    match words.command {
        Command::Help => put(words, words::HELP.as_bytes()).map(|()| Ending::Good),
        Command::Version => put(words, version::lines().as_bytes()).map(|()| Ending::Good),
        Command::Answer | Command::Check => answer_all(words),
        Command::Judge => judge(words),
        Command::Compare => compared(words),
        Command::Record => record_of(words),
        Command::Text => text_of(words),
    }
}

/// Writes to the output that the words name.
fn put(words: &Words, bytes: &[u8]) -> Result<(), Error> {
    output::put(words.output.as_deref(), bytes).map_err(Error::Unwritten)
}

/// Writes what was made of the texts. A sheet or a table that is there stays as it was where one of them has a mistake or cannot be
/// read.
fn put_good(words: &Words, ending: Ending, made: &str) -> Result<(), Error> {
    let there =
        words.output.as_ref().filter(|path| std::fs::metadata(path).is_ok_and(|file| file.is_file() && file.len() > 0));
    match there.filter(|_| ending == Ending::Fault && ![Form::Json, Form::Lines].contains(&words.form)) {
        Some(path) => {
            tell(&format!("ward: '{}' stays as it was: not all texts could be answered\n", name(path)));
            Ok(())
        }
        None => put(words, made.as_bytes()),
    }
}

/// A file's bytes, or those of standard input; no more than a text may have, and one.
fn bytes(path: &OsStr) -> Result<Vec<u8>, Error> {
    let mut bytes = Vec::new();
    let most = limits::TEXT as u64 + 1;
    let read = match path == "-" {
        true => io::stdin().lock().take(most).read_to_end(&mut bytes).map_err(output::unread),
        false => File::open(path).and_then(|file| file.take(most).read_to_end(&mut bytes)),
    };
    read.map(|_| bytes).map_err(Error::Unread)
}

/// Whether two paths name one file that is there; a device is none.
fn same(one: &OsStr, other: &OsStr) -> bool {
    let place = |path: &OsStr| std::fs::canonicalize(path).ok().filter(|path| path.is_file());
    one != "-" && place(one).is_some_and(|one| place(other) == Some(one))
}

/// A file's name in messages.
fn name(path: &OsStr) -> String {
    match path == "-" {
        true => "standard input".into(),
        false => path.to_string_lossy().into_owned(),
    }
}

/// Reads a text.
fn text(path: &OsStr) -> Report {
    match bytes(path) {
        Ok(bytes) => Report::read(&name(path), &bytes),
        Err(error) => Report::unread(&name(path), error),
    }
}

/// Mistakes, and warnings unless they are not wanted.
fn tell_remarks(report: &mut Report, words: &Words) {
    if words.quiet {
        report.remarks.retain(|remark| remark.weight == Weight::Mistake);
    }
    tell(&terminal::remarks(report, colour(io::stderr().is_terminal())));
}

/// Whether colours are put out: on a terminal, where NO_COLOR is not set.
fn colour(terminal: bool) -> bool {
    terminal && std::env::var_os("NO_COLOR").is_none_or(|value| value.is_empty())
}

fn look(words: &Words) -> Look {
    let locale = ["LC_ALL", "LC_CTYPE", "LANG"]
        .into_iter()
        .find_map(|name| std::env::var(name).ok().filter(|value| !value.is_empty()));
    let utf8 = locale
        .is_none_or(|locale| locale.to_lowercase().replace('-', "").contains("utf8") || !io::stdout().is_terminal());
    let width = std::env::var("COLUMNS").ok().and_then(|columns| columns.parse().ok()).unwrap_or(80);
    let colour = colour(io::stdout().is_terminal() && words.output.is_none());
    Look { width: std::cmp::Ord::clamp(width, 40, 160), signs: utf8 && !words.plain, colour }
}

/// Reads or answers the texts. What goes to a terminal is put out text by text, all else in the end.
fn answer_all(words: &Words) -> Result<Ending, Error> {
    let count = words.files.len();
    let alone = io::stderr().is_terminal() && (!io::stdout().is_terminal() || words.output.is_some());
    let progress = !words.quiet && (words.progress || count > 1 && alone);
    let streamed = [Form::Table, Form::Lines].contains(&words.form) && words.output.is_none();
    let mut reports = Vec::new();
    let mut ending = Ending::Good;
    for (number, path) in words.files.iter().enumerate() {
        let mut report = text(path);
        if words.command == Command::Answer {
            report.answer(Wishes { times: !words.quick, what_if: words.what_if, hours: true });
        }
        tell_remarks(&mut report, words);
        ending = ending.max(if words.status { report.ending_by_class() } else { report.ending() });
        if progress {
            tell(&format!("[{}/{count}] {}: {}\n", number + 1, report.file, report.brief()));
        }
        match streamed {
            true if words.form == Form::Lines => put(words, json::line(&report).as_bytes())?,
            true => put(words, table(words, &report, number > 0).as_bytes())?,
            false => reports.push(report),
        }
    }
    if !streamed {
        put_good(words, ending, &shaped(words, &reports))?;
    }
    Ok(ending)
}

/// A report for the terminal, with a gap to the one before it.
fn table(words: &Words, report: &Report, gap: bool) -> String {
    if words.command == Command::Check {
        return terminal::checked(report);
    }
    let table = terminal::report(report, look(words));
    match gap && !table.is_empty() {
        true => format!("\n\n{table}"),
        false => table,
    }
}

fn shaped(words: &Words, reports: &[Report]) -> String {
    match words.form {
        Form::Json => json::all(reports),
        Form::Lines => reports.iter().map(json::line).collect(),
        Form::Csv => csv::all(reports, csv::Kind::Plain),
        Form::Excel => csv::all(reports, csv::Kind::Excel),
        Form::Html => page::all(reports, words.wall),
        Form::Table => reports.iter().enumerate().map(|(number, report)| table(words, report, number > 0)).collect(),
    }
}

/// Two texts, answered and put side by side.
fn compared(words: &Words) -> Result<Ending, Error> {
    let mut reports: Vec<Report> = words.files.iter().map(|path| text(path)).collect();
    let mut ending = Ending::Good;
    for report in &mut reports {
        report.answer(Wishes { times: false, what_if: false, hours: true });
        tell_remarks(report, words);
        ending = ending.max(if words.status { report.ending_by_class() } else { report.ending() });
    }
    let Some(compared) = compare::of(&reports[0], &reports[1]) else { return Ok(ending.max(Ending::Fault)) };
    let told = if words.form == Form::Json { compared.json() } else { compared.words() };
    put(words, told.as_bytes()).map(|()| ending)
}

fn judge(words: &Words) -> Result<Ending, Error> {
    let mut report = text(&words.files[0]);
    match bytes(&words.files[1]) {
        Ok(answers) => {
            let answers = cut::from_hex(&answers).unwrap_or(answers);
            let count = report.sheet.as_ref().map_or(0, |sheet| sheet.questions.len());
            let parts: Vec<Vec<u8>> = cut::records(&answers, count).into_iter().map(<[u8]>::to_vec).collect();
            report.judge(&parts, Wishes { times: !words.quick, what_if: words.what_if, hours: false });
        }
        Err(error) => report.fault = Some(Error::In(name(&words.files[1]), Box::new(error))),
    }
    tell_remarks(&mut report, words);
    let ending = if words.status { report.ending_by_class() } else { report.ending() };
    put_good(words, ending, &shaped(words, &[report]))?;
    Ok(ending)
}

fn record_of(words: &Words) -> Result<Ending, Error> {
    let mut report = text(&words.files[0]);
    tell_remarks(&mut report, words);
    let Some(sheet) = report.sheet.as_ref().filter(|_| report.fault.is_none()) else { return Ok(Ending::Fault) };
    let records = record::sent(sheet);
    match words.binary {
        true => put(words, &records.concat())?,
        false => put(words, records.iter().map(|bytes| record::hex(bytes) + "\n").collect::<String>().as_bytes())?,
    }
    Ok(Ending::Good)
}

fn text_of(words: &Words) -> Result<Ending, Error> {
    let sheet = told(&words.files[0]).map_err(|error| Error::In(name(&words.files[0]), Box::new(error)))?;
    put(words, shown::text(&sheet, &archive::clock()).as_bytes()).map(|()| Ending::Good)
}

/// The sheet that a file's record tells.
fn told(path: &OsStr) -> Result<Sheet, Error> {
    let bytes = bytes(path)?;
    let bytes = cut::from_hex(&bytes).unwrap_or(bytes);
    let parts = cut::all(&bytes);
    if let Some(refusal) = parts.iter().find_map(|part| archive::refusal(part)) {
        return Err(Error::Refused(refusal));
    }
    record::joined(&parts).ok_or(if parts.len() == 1 { Error::NoText } else { Error::Several })
}
