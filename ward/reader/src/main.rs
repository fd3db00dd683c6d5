//! Reads texts and tells their mistakes, before anything is built: `ward-reader FILE..`. What a text of hours and minutes
//! says is judged later, by the archive. The status is 1 where a text has a mistake.

use std::io::{Read, Write};
use std::process::ExitCode;

use ward_reader::{limits, Clock, Weight};

fn main() -> ExitCode {
    let mut errors = std::io::stderr();
    let mut status = 0;
    for path in std::env::args_os().skip(1) {
        let file = path.to_string_lossy();
        let mut bytes = Vec::new();
        let opened =
            std::fs::File::open(&path).and_then(|file| file.take(limits::TEXT as u64 + 1).read_to_end(&mut bytes));
        if let Err(error) = opened {
            let _ = writeln!(errors, "{file}: {error}");
            status = 1;
            continue;
        }
        let read = ward_reader::read(&bytes, &Clock::unjudged());
        let mistakes = || read.remarks.iter().filter(|remark| remark.weight == Weight::Mistake);
        for remark in mistakes().take(limits::SHOWN) {
            let _ = write!(errors, "{}", remark.in_file(&file, &read.lines));
            status = 1;
        }
        if mistakes().count() > limits::SHOWN {
            let _ = writeln!(errors, "{file}: and {} more", mistakes().count() - limits::SHOWN);
        }
    }
    ExitCode::from(status)
}
