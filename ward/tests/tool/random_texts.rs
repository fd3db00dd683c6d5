//! Random texts, there and back: text, record, text, and the same record.

use random::Random;
use ward_reader::sheet::{Origin, Row};
use ward_reader::{record, shown, Clock, Weight};

use crate::ward;

const BLANK: i32 = i32::MIN;

/// Hours by the archive, as the tool has them.
pub fn clock() -> Clock {
    fn write(minutes: i32) -> String {
        let mut text = [0; span::TEXT_SIZE];
        let size = span::write_hours(Some(minutes), &mut text).expect("a time");
        String::from_utf8_lossy(&text[..size]).into_owned()
    }
    fn earliest(rules: &[&Row], count: usize) -> Vec<Option<i32>> {
        (1..count).map(|moment| earliest_of(rules, moment, count)).collect()
    }
    Clock { read: |text| span::read_hours(text.as_bytes()).ok().flatten(), write, earliest: Some(earliest) }
}

/// How early a moment can be, by a question of its own.
fn earliest_of(rules: &[&Row], moment: usize, count: usize) -> Option<i32> {
    let only = |moment: usize| (0..count).map(|place| (place == moment).then_some(0)).collect::<Vec<_>>();
    let place = ward_reader::remark::Place { line: 1, column: 1, width: 1 };
    let (left, right) = (only(moment), only(0));
    let row = Row { place, text: String::new(), left, right, in_force: true, origin: Origin::Line };
    let mut answer = [0; span::ANSWER_SIZE];
    let solved = span::solve(&record::one(rules, &row), &mut answer).expect("an answer");
    match solved.outcome {
        span::Outcome::Least(minute) => Some(minute),
        span::Outcome::Bottomless => None,
        span::Outcome::NoPlan => Some(0),
    }
}

/// A text, and the record that it means, put together without the tool.
pub struct Meant {
    pub text: String,
    pub record: Vec<u8>,
}

fn space(random: &mut Random) -> &'static str {
    ["", " ", "  ", "\t"][random.below(4)]
}

/// Minutes in one of the forms that there are; none that can be a time of day at or after an anchor of 7:30, or hours and minutes without
/// their colon.
fn minutes(random: &mut Random, minutes: i32, anchor: bool) -> String {
    let (hours, rest) = (minutes / 60, minutes % 60);
    let anchor = anchor || (450..1_440).contains(&minutes) || minutes >= 1_440 && minutes % 1_440 >= 360;
    let digits = (1_000..2_460).contains(&minutes) && minutes % 100 < 60;
    match random.below(if anchor { 6 } else { 8 }) {
        0 | 1 if !digits => minutes.to_string(),
        2 => format!("{minutes} min"),
        3 if minutes >= 60 => format!("{hours} h {rest}"),
        4 if rest == 0 => format!("{hours}h"),
        5 if minutes >= 1_440 => format!("{} days {} h {rest} min", hours / 24, hours % 24),
        6 if minutes >= 1_440 => format!("{} days {}:{rest:02}", hours / 24, hours % 24),
        6 => format!("{hours:02}:{rest:02}"),
        _ if anchor || minutes >= 1_440 => format!("{minutes}min"),
        _ => format!("{hours}:{rest:02}"),
    }
}

fn lead(random: &mut Random) -> i32 {
    match random.below(6) {
        0 => 0,
        1 => [-20_160, 20_160, 60, -60, 1][random.below(5)],
        2 => random.lead(-20_160, 20_160),
        _ => random.lead(-120, 120),
    }
}

fn term(random: &mut Random, name: &str, lead: i32) -> String {
    if lead == 0 && random.chance(2, 3) {
        return name.into();
    }
    let (before, after) = (space(random), space(random));
    let sign = match lead < 0 || lead == 0 && random.chance(1, 2) {
        true => [" - ", " – ", "  −\t"][random.below(3)].to_string(),
        false => format!("{before}+{after}"),
    };
    format!("{name}{sign}{}", minutes(random, lead.abs(), name == "anchor"))
}

/// A side in words, and its leads. A moment may be named twice; the larger lead counts.
fn side(random: &mut Random, names: &[String], may_be_nothing: bool) -> (String, Vec<i32>) {
    let mut leads = vec![BLANK; names.len()];
    if may_be_nothing && random.chance(1, 12) {
        return ("nothing".into(), leads);
    }
    let count = 1 + random.below(4) * random.below(2);
    let mut terms = Vec::new();
    for _ in 0..count {
        let (moment, lead) = (random.below(names.len()), lead(random));
        leads[moment] = leads[moment].max(lead);
        let term = term(random, &names[moment], lead);
        // Inside `later of` minutes stand in brackets.
        let loose = count == 1 || term == names[moment];
        terms.push(if loose && random.chance(3, 4) { term } else { format!("({term})") });
    }
    let comma = format!("{},{}", space(random), space(random));
    let word = ["later", "latest", "Later"][random.below(3)];
    let words =
        if count == 1 && random.chance(3, 4) { terms.concat() } else { format!("{word} of {}", terms.join(&comma)) };
    (words, leads)
}

fn comment(random: &mut Random) -> &'static str {
    ["", "", " # why", "\t#", " # a \"quote\" <= b"][random.below(5)]
}

/// A text with up to so many moments and rules.
pub fn text(random: &mut Random, most_moments: usize, most_rules: usize) -> Meant {
    let plain = ["ready", "bed", "Küche", "x_1", "théâtre", "later2", "a.b"];
    let strange = ["“bed 4-B”", "\"to\"", "\"Bett #7, links\"", "\"<= 5\"", "\"nurse (late)\""];
    let n = random.below(most_moments + 1);
    let mut names = vec!["anchor".to_string()];
    for number in 1..=n {
        let name = match (random.below(4), number) {
            (0, number @ 1..=7) => plain[number - 1].into(),
            (1, 1..=5) => strange[number - 1].replace("<= 5", "5 <= x"),
            _ => format!("m{number}"),
        };
        names.push(name);
    }
    let (m, questions) = (random.below(most_rules + 1), 1 + random.below(8) * random.below(2));
    let mut lines = Vec::new();
    if n > 0 {
        let cut = 1 + random.below(n);
        lines.push(format!("moments: {}{}", names[1..=cut].join(", "), comment(random)));
        if cut < n {
            lines.push(format!("  moments :{}", names[cut + 1..].join(",")));
        }
    }
    let mut rows: Vec<Vec<i32>> = Vec::new();
    for _ in 0..m {
        let (left, left_leads) = side(random, &names, false);
        // A rule that forbids its own moments is a mistake of its text.
        let (right, right_leads) = loop {
            let (right, leads) = side(random, &names, true);
            let mut late = leads.iter().zip(&left_leads).filter(|(lead, _)| **lead != BLANK).peekable();
            if late.peek().is_none() || late.any(|(right, left)| left <= right) {
                break (right, leads);
            }
        };
        let sign = ["<=", "≤"][random.below(2)];
        lines.push(format!(
            "{}{left}{}{sign}{}{right}{}",
            space(random),
            space(random),
            space(random),
            comment(random)
        ));
        rows.push([left_leads, right_leads].concat());
        if random.chance(1, 5) {
            lines.push("# between".into());
        }
    }
    for _ in 0..questions {
        let ((start, start_leads), (end, end_leads)) = (side(random, &names, true), side(random, &names, true));
        lines.push(format!("span: from {start} to {end}{}", comment(random)));
        rows.push([end_leads, start_leads].concat());
    }
    if random.chance(1, 3) {
        lines.insert(random.below(lines.len() + 1), "anchor: Tue 7:30".into());
    }
    Meant { text: lines.join(["\n", "\r\n"][random.below(2)]) + "\n", record: put_together(n, m, questions, &rows) }
}

/// Length, kind, n, m, the count where there are several questions, and rows.
fn put_together(n: usize, m: usize, questions: usize, rows: &[Vec<i32>]) -> Vec<u8> {
    let mut body = Vec::new();
    let mut two = |number: usize| body.extend((number as u16).to_le_bytes());
    two(if questions == 1 { 1 } else { 3 });
    two(n);
    two(m);
    if questions > 1 {
        two(questions);
    }
    body.extend(rows.iter().flatten().flat_map(|lead| lead.to_le_bytes()));
    [(body.len() as u32).to_le_bytes().to_vec(), body].concat()
}

#[test]
fn random_texts_go_there_and_back() {
    let mut random = Random::new(500);
    for number in 0..500 {
        let Meant { text, record: meant } = text(&mut random, 31, 63);
        let read = ward_reader::read(text.as_bytes(), &clock());
        let mistakes: Vec<_> = read.remarks.iter().filter(|remark| remark.weight == Weight::Mistake).collect();
        assert!(mistakes.is_empty(), "{mistakes:?}\n{text}");
        let sheet = read.sheet.expect("a good text");
        assert_eq!(record::sent(&sheet), std::slice::from_ref(&meant), "{text}");
        let same = shown::text(&sheet, &clock());
        let again = shown::text(&record::sheet(&meant).expect("a record"), &clock());
        for text in [same, again] {
            let read = ward_reader::read(text.as_bytes(), &clock()).sheet.unwrap_or_else(|| panic!("{text}"));
            assert_eq!(record::sent(&read), std::slice::from_ref(&meant), "{text}");
        }
        // The archive takes what the tool makes of a text.
        assert_eq!(span::solve_all(&meant, &mut []).map_err(|refusal| refusal.number), Err(7), "{text}");
        if number % 10 == 0 {
            let hex = ward(&["record", "-"], &text);
            assert_eq!((hex.status, hex.out.trim_end()), (Some(0), record::hex(&meant).as_str()), "{text}");
            let back = ward(&["text", "-"], &hex.out);
            assert_eq!(ward(&["record", "-"], &back.out).out, hex.out, "{}", back.out);
        }
    }
}

/// A random record: of kind 1, of kind 3 with one question or several, or of kind 5 with suspended rules or none.
fn random_record(random: &mut Random) -> Vec<u8> {
    let (n, m) = (random.below(32), random.below(64));
    let side = |random: &mut Random| -> Vec<i32> {
        let lead = |random: &mut Random| if random.chance(1, 3) { lead(random) } else { BLANK };
        (0..=n).map(|_| lead(random)).collect()
    };
    let row = |random: &mut Random, rule: bool| {
        let (mut left, right) = (side(random), side(random));
        if rule && left.iter().all(|lead| *lead == BLANK) {
            left[random.below(n + 1)] = lead(random);
        }
        [left, right].concat()
    };
    let kind = [1, 3, 5][random.below(3)];
    let questions = if kind == 3 { 1 + random.below(8) * random.below(2) } else { 1 };
    let rows: Vec<Vec<i32>> = (0..m + questions).map(|place| row(random, place < m)).collect();
    let mut numbers = vec![kind, n, m];
    numbers.extend((kind == 3).then_some(questions));
    let all = random.chance(1, 3);
    numbers.extend((0..m).filter(|_| kind == 5).map(|_| (all || random.chance(2, 3)) as usize).collect::<Vec<_>>());
    let mut body: Vec<u8> = numbers.iter().flat_map(|&number| (number as u16).to_le_bytes()).collect();
    body.extend(rows.iter().flatten().flat_map(|lead| lead.to_le_bytes()));
    [&(body.len() as u32).to_le_bytes()[..], &body].concat()
}

/// Whatever a record holds, the text that tells it gives the same record.
#[test]
fn random_records_go_there_and_back() {
    let mut random = Random::new(227);
    let mut kinds = [0; 6];
    let mut told = [0; 2];
    for number in 0..500 {
        let record = random_record(&mut random);
        kinds[usize::from(record[4])] += 1;
        assert_eq!(span::solve_all(&record, &mut []).map_err(|refusal| refusal.number), Err(7));
        let text = shown::text(&record::sheet(&record).expect("a record"), &clock());
        let read = ward_reader::read(text.as_bytes(), &clock());
        let sheet = read.sheet.unwrap_or_else(|| panic!("{:?}\n{text}", read.remarks));
        assert_eq!(record::sent(&sheet), std::slice::from_ref(&record), "{text}");
        assert_eq!(crate::second::record(&text).as_ref(), Some(&record), "{text}");
        told[0] += text.contains("record: with a count of its spans\n") as usize;
        told[1] += text.contains("record: with the state of each rule\n") as usize;
        if number % 10 == 0 {
            let told = ward(&["text", "-"], record::hex(&record));
            assert_eq!((told.status, told.out.as_str()), (Some(0), text.as_str()), "{told:?}");
            assert_eq!(ward(&["record", "-"], &told.out).out.trim_end(), record::hex(&record));
        }
    }
    assert!([1, 3, 5].iter().all(|&kind| kinds[kind] >= 80), "{kinds:?}");
    assert!(told.iter().all(|&count| count >= 30), "{told:?}");
}

/// A record whose form the line `record:` tells is answered as the shorter one is.
#[test]
fn the_form_of_a_record_changes_no_answer() {
    let text = "moments: bed\nanchor + 30 <= bed\nspan: from anchor to bed\nexpect: least 30\n";
    for (line, kind) in
        [("", 1), ("record: with a count of its spans\n", 3), ("record: with the state of each rule\n", 5)]
    {
        let text = format!("{line}{text}");
        assert_eq!(ward(&["-"], &text).status, Some(0), "{text}");
        assert_eq!(ward(&["record", "-"], &text).out[8..12], format!("{kind:02X}00"), "{text}");
    }
    let told = ward(&["check", "-"], format!("record: with a count of its spans\nsuspended: anchor <= bed\n{text}"));
    assert!(told.err.contains("no record has a count of its spans and suspended rules"), "{told:?}");
    let told = ward(&["check", "-"], format!("record: short\n{text}"));
    assert!(told.status == Some(1) && told.err.contains("record: with the state of each rule"), "{told:?}");
}

/// The limits that the messages name are the archive's.
#[test]
fn the_limits_are_the_archives() {
    use ward_reader::limits;
    let zero = |n: usize| vec![0; 2 * (n + 1)];
    let number = |n: usize, m: usize, questions: usize, rows: &[Vec<i32>]| {
        span::solve_all(&put_together(n, m, questions, rows), &mut []).map_err(|refusal| refusal.number)
    };
    let rows = |n: usize, count: usize| vec![zero(n); count];
    assert_eq!(number(limits::MOMENTS, limits::RULES, 1, &rows(limits::MOMENTS, limits::RULES + 1)), Err(7));
    assert_eq!(number(limits::MOMENTS + 1, 0, 1, &rows(limits::MOMENTS + 1, 1)), Err(4));
    assert_eq!(number(0, limits::RULES + 1, 1, &rows(0, limits::RULES + 2)), Err(4));
    assert_eq!(number(0, 0, limits::QUESTIONS, &rows(0, limits::QUESTIONS)), Err(7));
    assert_eq!(number(0, 0, limits::QUESTIONS + 1, &rows(0, limits::QUESTIONS + 1)), Err(15));
    for (lead, refusal) in [(limits::LEAD, 7), (-limits::LEAD, 7), (limits::LEAD + 1, 6), (-limits::LEAD - 1, 6)] {
        assert_eq!(number(0, 0, 1, &[vec![lead, 0]]), Err(refusal));
    }
    assert_eq!(number(0, 1, 1, &[vec![BLANK, 0], zero(0)]), Err(17));
    let window = |number: u32| span::Window { opening: 100 * number, closing: 100 * number + 50 };
    let week = |count: usize| (0..count as u32).map(window).collect::<Vec<_>>();
    assert!(span::first_open(&week(limits::WINDOWS), 0).is_ok());
    assert!(span::first_open(&week(limits::WINDOWS + 1), 0).is_err());
}

/// The records of a text with a suspended rule and two spans, that of an empty text, and one with a rule that forbids its own moment.
#[test]
fn all_records_of_a_text_go_there_and_back() {
    let rules = "moments: a, b\nsuspended: a + 5 <= b\nanchor <= a\n";
    let own = "record: with rules that forbid their own moments\nmoments: a\na + 5 <= a\nspan: from anchor to a\n";
    for text in [&format!("{rules}span: from anchor to a\nspan: from a to b\n"), "", own] {
        let hex = ward(&["record", "-"], text);
        let back = ward(&["text", "-"], &hex.out);
        assert_eq!((hex.status, back.status), (Some(0), Some(0)), "{text}{back:?}");
        assert_eq!(ward(&["record", "-"], &back.out).out, hex.out, "{}", back.out);
    }
    let one = ward(&["record", "-"], "moments: a\nspan: from anchor to a\n").out;
    let told = ward(&["text", "-"], format!("{one}{one}"));
    assert!(told.status == Some(1) && told.err.contains("these are several records"), "{told:?}");
}
