//! The list: `lines.txt` tells its form at its top.

use ward_reader::clock::{self, DAY};
use ward_reader::Sheet;

/// A side in the list's normal form: names with minutes, sorted.
pub type Side = Vec<(String, i32)>;

/// A rule as it is compared; see `Plain`.
pub type Rule = (String, Side, bool);

#[derive(Default)]
pub struct Meant {
    pub rules: Vec<Rule>,
    pub moments: Option<Vec<String>>,
    pub spans: Vec<(Side, Side)>,
    pub expected: Vec<String>,
    pub admits: Option<Vec<String>>,
    pub open: Option<Vec<(u32, u32)>>,
}

pub enum Wanted {
    Means(Meant),
    Mistake,
    Ambiguous(Vec<String>),
    MistakeOrMeans(Meant),
}

pub struct Case {
    pub title: String,
    /// The line of the list.
    pub line: usize,
    pub text: String,
    pub wanted: Wanted,
}

/// All cases.
pub fn cases(list: &str) -> Vec<Case> {
    let mut cases = Vec::new();
    let mut part: Vec<(usize, &str)> = Vec::new();
    for (number, line) in (1..).zip(list.split('\n')).chain([(0, "")]) {
        match line {
            line if line.starts_with('%') => {}
            "" if part.is_empty() => {}
            "" => cases.push(case(&std::mem::take(&mut part))),
            line => part.push((number, line)),
        }
    }
    cases
}

fn case(lines: &[(usize, &str)]) -> Case {
    let (line, first) = lines[0];
    let title = first.strip_prefix("case: ").unwrap_or_else(|| panic!("line {line}: {first}")).to_string();
    assert_eq!(lines[1].1, "text:", "line {line}");
    let bar = |line: &str| line.strip_prefix("| ").or(line.strip_prefix('|')).map(String::from);
    let text: Vec<String> = lines[2..].iter().map_while(|(_, line)| bar(line)).collect();
    let (_, head) = lines[2 + text.len()];
    let rest: Vec<String> = lines[3 + text.len()..].iter().filter_map(|(_, line)| bar(line)).collect();
    assert_eq!(rest.len(), lines.len() - text.len() - 3, "line {line}");
    let wanted = match head.split(':').next() {
        Some("means") => Wanted::Means(meant(&rest)),
        Some("mistake or means") => Wanted::MistakeOrMeans(meant(&rest)),
        Some("ambiguous") => Wanted::Ambiguous(rest),
        Some("mistake") => Wanted::Mistake,
        _ => panic!("line {line}: {head}"),
    };
    Case { title, line, text: text.join("\n") + "\n", wanted }
}

fn meant(lines: &[String]) -> Meant {
    let mut meant = Meant::default();
    let names = |list: &str| list.split(" | ").map(String::from).collect::<Vec<_>>();
    for line in lines {
        if let Some(list) = line.strip_prefix("moments: ") {
            meant.moments = Some(names(list));
        } else if let Some(list) = line.strip_prefix("admits: ") {
            meant.admits = Some(names(list));
        } else if let Some(list) = line.strip_prefix("open: ") {
            meant.open = Some(list.split(" | ").map(window).collect());
        } else if let Some(groups) = line.strip_prefix("span: from ") {
            // A name in quotes holds no such word in the list.
            let (start, end) = groups.rsplit_once(" to ").expect("a span");
            let (start, end) = match groups {
                "from + 0 to to + 0" => ("from + 0", "to + 0"),
                _ => (start, end),
            };
            meant.spans.push((side(start), side(end)));
        } else if let Some(expected) = line.strip_prefix("expect: ") {
            meant.expected.push(expected.into());
        } else if let Some(lifted) = line.strip_prefix("suspended: ") {
            meant.rules.extend(rule(lifted, false));
        } else {
            meant.rules.extend(rule(line, true));
        }
    }
    meant
}

fn rule(text: &str, in_force: bool) -> Vec<Rule> {
    let (left, right) = text.rsplit_once(" <= ").unwrap_or_else(|| panic!("{text}"));
    let right = side(right);
    let moved = |lead: i32| right.iter().map(|(name, other)| (name.clone(), other - lead)).collect::<Side>();
    side(left).into_iter().map(|(name, lead)| (name, moved(lead), in_force)).collect()
}

/// `a + 5, "bed 4" + -15`, or `nothing`.
fn side(text: &str) -> Side {
    let mut side = Side::new();
    let mut rest = text;
    while rest != "nothing" && !rest.is_empty() {
        let (name, behind) = match rest.strip_prefix('"') {
            Some(quoted) => quoted.split_once('"').expect("a quote"),
            None => (rest.split(' ').next().expect("a name"), &rest[rest.find(' ').expect("minutes")..]),
        };
        let behind = behind.strip_prefix(" + ").expect("minutes");
        let (minutes, next) = behind.split_once(", ").unwrap_or((behind, ""));
        side.push((name.into(), minutes.parse().expect("a number")));
        rest = next;
    }
    side.sort();
    side
}

/// A side of a sheet in this form.
pub fn side_of(sheet: &Sheet, leads: &[Option<i32>]) -> Side {
    let name = |place: usize| sheet.moments[place].name.clone();
    let mut side: Side = leads.iter().enumerate().filter_map(|(place, lead)| Some((name(place), (*lead)?))).collect();
    side.sort();
    side
}

/// `Mon 7:00-18:00`.
fn window(text: &str) -> (u32, u32) {
    let (day, hours) = text.split_once(' ').expect("a day");
    let day = clock::day(day).expect("a day") as u32 * DAY as u32;
    let minute = |text: &str| {
        let (hours, minutes) = text.split_once(':').expect("a time");
        day + 60 * hours.parse::<u32>().expect("hours") + minutes.parse::<u32>().expect("minutes")
    };
    let (opening, closing) = hours.split_once('-').expect("hours");
    (minute(opening), minute(closing))
}
