//! The guide's tables: each form gives the rules that stand beside it, and what is asked about shows the readings beside it.

use crate::{mistakes, read, said};

const GUIDE: &str = include_str!("../../../docs/SCHEDULERS.md");

/// The code between back quotes in a cell.
fn code(cell: &str) -> Vec<&str> {
    cell.split('`').skip(1).step_by(2).collect()
}

/// The rows of the table with this heading: what is written, and what stands beside it.
fn table(heading: &str) -> Vec<(&'static str, Vec<&'static str>)> {
    let mut lines = GUIDE.lines().skip_while(|line| *line != heading).skip(2);
    let rows = lines.by_ref().take_while(|line| line.starts_with('|'));
    rows.map(|line| {
        let cells: Vec<&str> = line.split('|').collect();
        (code(cells[1])[0], code(cells[2]))
    })
    .collect()
}

fn text(line: &str) -> String {
    let head = "moments: ready, porter, leaves, free, cleaned, home\nanchor: 2026-11-17 8:00";
    format!("{head}\n{line}\nspan: from anchor to ready\n")
}

#[test]
fn each_form_is_the_rule_beside_it() {
    let rows = table("| you write | it stands for |");
    assert!(rows.len() >= 20, "{}", rows.len());
    for (form, rules) in rows {
        let sheet = |text: String| {
            let read = read(&text);
            read.sheet.unwrap_or_else(|| panic!("{text}{:?}", read.remarks))
        };
        assert_eq!(said(&sheet(text(form))), said(&sheet(text(&rules.join("\n")))), "{form}");
    }
}

#[test]
fn what_is_asked_about_shows_the_readings_beside_it() {
    let rows = table("| you write | it can be |");
    assert!(rows.len() >= 8, "{}", rows.len());
    for (form, readings) in rows {
        let read = read(&text(form));
        let found = mistakes(&read);
        assert_eq!(found.len(), 1, "{form}: {found:?}");
        let mut shown: Vec<&str> = found[0].fixes.iter().flat_map(|fix| &fix.lines).map(String::as_str).collect();
        let mut wanted = readings.clone();
        shown.sort();
        wanted.sort();
        assert_eq!(shown, wanted, "{form}");
    }
}
