//! The examples of docs/RECORDS.md: their places, and that the builder and the helpers in C make their bytes and read them.

mod compiled;

use compiled::{archive, languages, Built};
use span::{Answer, Fault, Outcome, Problem, Refusal, What};
use std::collections::{BTreeMap, BTreeSet};
use std::fs;
use std::path::Path;

/// The bytes below each heading. A line has a place, bytes in hexadecimal and words; each place is where the bytes before it end.
fn examples() -> BTreeMap<String, Vec<u8>> {
    let page = fs::read_to_string("../../docs/RECORDS.md").expect("the page of records");
    let (mut name, mut found) = (String::new(), BTreeMap::<String, Vec<u8>>::new());
    for line in page.lines() {
        if let Some(heading) = line.strip_prefix("##") {
            name = heading.trim_start_matches(['#', ' ']).into();
        }
        let parts: Vec<&str> = line.split("  ").map(str::trim).filter(|part| !part.is_empty()).collect();
        let [place, bytes, _] = parts[..] else { continue };
        let (true, Ok(place)) = (line.starts_with("    "), place.parse::<usize>()) else { continue };
        let record = found.entry(name.clone()).or_default();
        assert_eq!(place, record.len(), "{name}: {line}");
        record.extend(bytes_of(&bytes.replace(' ', "")));
    }
    found
}

fn bytes_of(hex: &str) -> impl Iterator<Item = u8> + '_ {
    (0..hex.len() / 2).map(|place| u8::from_str_radix(&hex[2 * place..2 * place + 2], 16).expect("hexadecimal"))
}

fn hex(bytes: &[u8]) -> String {
    bytes.iter().map(|byte| format!("{byte:02X}")).collect()
}

const DECISION: usize = 0;
const CLEANED: usize = 1;
const READY: usize = 2;
const ARRIVAL: usize = 3;

/// The rules of the day.
fn day() -> Result<Problem, Fault> {
    let mut day = Problem::new(3)?;
    day.rule(&[(DECISION, 70)], &[(CLEANED, 0)])?;
    day.rule(&[(READY, 0)], &[(DECISION, 50)])?;
    day.rule(&[(CLEANED, 0), (READY, 15)], &[(ARRIVAL, 0)])?;
    Ok(day)
}

/// The problems of the page by their headings, and one that it tells in words.
fn problems() -> Result<BTreeMap<&'static str, Problem>, Fault> {
    let mut smallest = Problem::new(0)?;
    smallest.question(&[(0, 5)], &[(0, 2)])?;
    let mut quarrel = Problem::new(1)?;
    quarrel.rule(&[(0, 30)], &[(1, 0)])?;
    quarrel.rule(&[(1, 0)], &[(0, 20)])?;
    quarrel.question(&[(1, 0)], &[(0, 0)])?;
    let (mut plain, mut back) = (day()?, day()?);
    plain.question(&[(ARRIVAL, 0)], &[(READY, 0)])?;
    back.question(&[(READY, 0)], &[(ARRIVAL, 0)])?;
    let (mut two, mut weekend) = (plain.clone(), plain.clone());
    two.question(&[(ARRIVAL, 0)], &[(DECISION, 0)])?;
    weekend.in_force(2, false)?;
    Ok(BTreeMap::from([
        ("The smallest problem", smallest),
        ("The quarrel", quarrel),
        ("The day", plain),
        ("Two questions", two),
        ("The weekend", weekend),
        ("From arrival to ready", back),
    ]))
}

#[test]
fn the_builder_makes_their_bytes() -> Result<(), Fault> {
    let (examples, problems) = (examples(), problems()?);
    for name in ["The smallest problem", "The quarrel", "The day", "Two questions", "The weekend"] {
        assert_eq!(hex(&problems[name].record()?), hex(&examples[name]), "{name}");
    }
    assert_eq!(examples.len(), 12, "{:?}", examples.keys());
    Ok(())
}

/// The checker accepts each answer, and it is read and written again to the same bytes.
#[test]
fn the_checker_accepts_their_answers() -> Result<(), Box<dyn std::error::Error>> {
    let (examples, problems) = (examples(), problems()?);
    for (problem, answer, outcome) in [
        ("The smallest problem", "The smallest answer", Outcome::Least(3)),
        ("The day", "The day's answer", Outcome::Least(20)),
        ("The weekend", "The weekend's answer", Outcome::Least(15)),
        ("From arrival to ready", "A bottomless answer", Outcome::Bottomless),
        ("The quarrel", "The quarrel's answer", Outcome::NoPlan),
    ] {
        let (problem, record) = (&problems[problem], &examples[answer]);
        assert_eq!(span::check(&problem.record()?, record)?.outcome, outcome, "{answer}");
        let mut again = [0; span::ANSWER_SIZE];
        let size = span::write(&span::read(record, problem.n(), problem.m())?, problem.n(), problem.m(), &mut again)?;
        assert_eq!(&again[..size], &record[..], "{answer}");
        let solved = span::solve(&problem.record()?, &mut again)?;
        assert_eq!((solved.outcome, hex(&again[..solved.size])), (outcome, hex(record)), "{answer}");
    }
    assert_eq!(span::check(&[], &examples["The idle day's answer"])?.outcome, Outcome::Least(0));
    Ok(())
}

/// The rules behind the answers and their rounds are those that the page names.
#[test]
fn their_reasons_are_told() -> Result<(), Box<dyn std::error::Error>> {
    let (examples, problems) = (examples(), problems()?);
    for (problem, answer, lines) in [
        ("The day", "The day's answer", "rules 1 2 3\nround 2 0 1 3\n"),
        ("The weekend", "The weekend's answer", "rules 3\nround 2 3\n"),
        ("The quarrel", "The quarrel's answer", "rules 1 2\n"),
    ] {
        assert_eq!(span::reasons(&problems[problem].record()?, &examples[answer])?.to_string(), lines, "{answer}");
    }
    // The same plan with its reach from the anchor, as another engine may answer: the round starts there.
    let mut from_anchor = examples["The day's answer"].clone();
    from_anchor[14..16].copy_from_slice(&[0, 0]);
    let day = problems["The day"].record()?;
    assert_eq!(span::check(&day, &from_anchor)?.outcome, Outcome::Least(20));
    assert_eq!(span::reasons(&day, &from_anchor)?.to_string(), "rules 1 2 3\nround 0 1 3 2\n");
    let back = problems["From arrival to ready"].record()?;
    assert_eq!(span::reasons(&back, &examples["A bottomless answer"]).unwrap_err().cause(), span::Cause::NoReasons);
    Ok(())
}

/// Each of the two answers stands where the one before ended, and is accepted with its question alone.
#[test]
fn several_answers_are_walked() -> Result<(), Box<dyn std::error::Error>> {
    let (records, two) = (&examples()["Two answers"], &problems()?["Two questions"]);
    let mut buffer = [0; 2 * span::ANSWER_SIZE];
    let solved = span::solve_all(&two.record()?, &mut buffer)?;
    let mut at = 0;
    for (place, span) in [20, 70].into_iter().enumerate() {
        let end = at + 4 + records[at] as usize;
        assert_eq!(span::check(&two.alone(place)?, &records[at..end])?.outcome, Outcome::Least(span));
        assert_eq!(
            (solved.answers[place].outcome, solved.answers[place].bytes.clone()),
            (Outcome::Least(span), at..end)
        );
        at = end;
    }
    assert_eq!(hex(&buffer[..at]), hex(records));
    Ok(())
}

/// An answer's fields as tests/records.c prints them.
fn fields(record: &[u8], n: usize, m: usize) -> Result<String, Refusal> {
    let answer = span::read(record, n, m)?;
    let shown = |minute: Option<i32>| minute.map_or("blank".into(), |minute| minute.to_string());
    let span = if let Answer::Least { span, .. } = answer { Some(span) } else { None };
    let mut line = format!("size {} class {} span {}", record.len(), answer.class().number(), shown(span));
    line += &format!(" start {} stamps", answer.start());
    answer.stamps().iter().for_each(|&stamp| line += &format!(" {}", shown(stamp)));
    line += " picks";
    answer.picks().iter().for_each(|pick| line += &format!(" {pick}"));
    Ok(line + "\n")
}

const FAULTS: &str = "\
header 0: fault 3
header 1: fault 4
header 2: fault 4
header 3: fault 5
header 4: fault 15
header 5: fault 7
no fault: fault 0 row 0 moment 0
lead: fault 6 row 1 moment 0
moment: fault 5 row 1 moment 2
left list: fault 17 row 1 moment 0
row missing: fault 5 row 2 moment 0
row too many: fault 5 row 3 moment 0
";

#[test]
fn the_helpers_in_c_make_and_read_them() -> Result<(), Box<dyn std::error::Error>> {
    let examples = examples();
    let names = ["The smallest problem", "The day", "The quarrel", "Two questions", "The weekend"];
    let lines: String = names.iter().map(|name| format!("{name}: {}\n", hex(&examples[*name]))).collect();
    for language in languages() {
        let built =
            Built::new(Path::new("tests/records.c"), language, &["-I..".into(), archive().display().to_string()]);
        assert_eq!(built.ran(&[]), lines.clone() + FAULTS);
        for (name, n, m) in [
            ("The smallest answer", 0, 0),
            ("The day's answer", 3, 3),
            ("The weekend's answer", 3, 3),
            ("A bottomless answer", 3, 3),
            ("The quarrel's answer", 1, 2),
            ("The idle day's answer", 0, 0),
        ] {
            assert_eq!(built.ran(&[&hex(&examples[name])]), fields(&examples[name], n, m)?, "{name}");
        }
        let two = &examples["Two answers"];
        let both = fields(&two[..40], 3, 3)? + &fields(&two[40..], 3, 3)?;
        assert_eq!(built.ran(&[&hex(two)]), both);
    }
    Ok(())
}

/// A fault says row, list and moment, and nothing was added.
#[test]
fn faults_have_a_place() -> Result<(), Fault> {
    let mut problem = day()?;
    let before = problem.clone();
    let told = |problem: &mut Problem, left: &[(usize, i32)], right: &[(usize, i32)]| {
        problem.rule(left, right).unwrap_err().to_string()
    };
    assert_eq!(told(&mut problem, &[(4, 0)], &[]), "rule 4, left list, moment 4: there is no such moment");
    assert_eq!(
        told(&mut problem, &[(0, 0)], &[(2, 20_161)]),
        "rule 4, right list, moment 2: the lead 20161 is beyond ±20160"
    );
    assert_eq!(told(&mut problem, &[(0, span::BLANK)], &[(1, 0)]), "rule 4: the left list is all blank");
    assert_eq!(
        told(&mut problem, &[(0, 0)], &[(1, 0), (1, 0)]),
        "rule 4, right list, moment 1: the list has this moment twice"
    );
    assert_eq!(told(&mut problem, &[], &[(1, 0)]), "rule 4: the left list is all blank");
    assert_eq!(
        problem.question(&[(9, 0)], &[]).unwrap_err().to_string(),
        "question 1, left list, moment 9: there is no such moment"
    );
    assert_eq!(problem.in_force(4, true).unwrap_err().to_string(), "rule 4: there is no such row");
    assert_eq!(problem.in_force(0, true).unwrap_err().what, What::NoSuchRow);
    assert_eq!(problem.record().unwrap_err().what, What::NoQuestion);
    assert_eq!(problem, before);
    assert_eq!(Problem::new(32).unwrap_err().to_string(), "there are at most 31 moments beside the anchor");
    Ok(())
}

/// At the limits a problem is taken by the engine, and one beyond there is a fault.
#[test]
fn limits_are_the_engine_s() -> Result<(), Box<dyn std::error::Error>> {
    let mut problem = Problem::new(span::MOST_N)?;
    for _ in 0..span::MOST_M {
        problem.rule(&[(0, span::MOST_LEAD)], &[(span::MOST_N, 0)])?;
    }
    assert_eq!(problem.rule(&[(0, 0)], &[]).unwrap_err().to_string(), "rule 64: there are at most 63 rules");
    for _ in 0..span::QUESTIONS {
        problem.question(&[(span::MOST_N, 0)], &[(0, 0)])?;
    }
    assert_eq!(problem.question(&[], &[]).unwrap_err().to_string(), "question 9: there are at most 8 questions");
    let record = problem.record()?;
    assert_eq!(record.len(), span::QUESTIONS_SIZE);
    let mut buffer = [0; span::QUESTIONS * span::ANSWER_SIZE];
    assert_eq!(span::solve_all(&record, &mut buffer)?.answers[7].outcome, Outcome::Least(span::MOST_LEAD));
    assert_eq!(problem.alone(7)?.len(), span::PROBLEM_SIZE);
    assert_eq!(problem.alone(8).unwrap_err().to_string(), "question 9: there is no such row");
    problem.in_force(1, false)?;
    assert_eq!(problem.record().unwrap_err().what, What::StatesAndQuestions);
    Ok(())
}

/// Each refusal has a name of its own, and is shown with a reason of its own in plain words.
#[test]
fn refusals_have_reasons() {
    let (mut reasons, mut causes) = (BTreeSet::new(), BTreeSet::new());
    for number in 1..=27 {
        let refusal = Refusal { number };
        let line = if number == 14 { "not certified".into() } else { format!("refused {number}") };
        assert_eq!(refusal.to_string(), format!("{line}: {}", refusal.reason()));
        assert!(!refusal.reason().ends_with('.') && !refusal.reason().contains("no refusal"), "{refusal}");
        assert!(reasons.insert(refusal.reason()) && causes.insert(format!("{:?}", refusal.cause())), "{refusal}");
    }
    for number in [0, 28, 255] {
        assert_eq!(Refusal { number }.cause(), span::Cause::Other(number));
        assert_eq!(Refusal { number }.to_string(), format!("refused {number}: no refusal has this number"));
    }
}

/// Several questions and a suspended rule together, asked in one call: each answer is the one that its record alone gets.
#[test]
fn one_call_answers_all() -> Result<(), span::Error> {
    let mut weekend = problems()?.remove("Two questions").expect("a problem of the page");
    let week = weekend.solve()?;
    assert_eq!(week.iter().map(|one| one.outcome).collect::<Vec<_>>(), [Outcome::Least(20), Outcome::Least(70)]);
    weekend.in_force(2, false)?;
    let solutions = weekend.solve()?;
    assert_eq!(solutions.iter().map(|one| one.outcome).collect::<Vec<_>>(), [Outcome::Least(15), Outcome::Least(70)]);
    for (place, solution) in solutions.iter().enumerate() {
        assert_eq!(solution.judge()?.outcome, solution.outcome);
        assert_eq!(weekend.judge(place, &solution.record)?.outcome, solution.outcome);
        assert_eq!(solution.reasons()?.round.is_some(), matches!(solution.outcome, Outcome::Least(_)));
        assert_eq!(span::read(&solution.record, weekend.n(), weekend.m())?, solution.answer);
    }
    assert_eq!(weekend.judge(0, &week[0].record).unwrap_err(), span::Error::Refused(Refusal { number: 14 }));
    assert_eq!(solutions[0].minute(99), None);
    assert_eq!(Problem::new(1)?.solve().unwrap_err().to_string(), "question 1: there is no question");
    let far = weekend.solve_one(usize::MAX).unwrap_err();
    assert_eq!(far.to_string(), format!("question {}: there is no such row", usize::MAX));
    Ok(())
}

/// A desk of its own may move from thread to thread, and answers as the engine does.
#[test]
fn a_desk_of_its_own() -> Result<(), span::Error> {
    let day = &problems()?["The day"];
    let mut desk = span::Desk::new();
    let ticket = desk.take(day)?;
    let mut desk = std::thread::spawn(move || {
        while desk.step() != span::Step::NoneWaits {}
        desk
    })
    .join()
    .expect("the thread ends well");
    let mut buffer = [0; span::ANSWER_SIZE];
    let span::Collected::Answer { trials, size, .. } = desk.collect(ticket, &mut buffer)? else { panic!("it waits") };
    let alone = day.solve_one(0)?;
    assert_eq!((trials, &buffer[..size]), (alone.trials, &alone.record[..]));
    assert_eq!(desk.take(&problems()?["Two questions"]).unwrap_err(), span::Error::Refused(Refusal { number: 3 }));
    Ok(())
}

/// The archive is the one that the package names.
#[test]
fn the_archive_is_named() {
    assert_eq!(span::version(), span::VERSION);
    let told = std::process::Command::new("sha256sum").arg(archive()).output().expect("sha256sum");
    assert_eq!(String::from_utf8_lossy(&told.stdout).split(' ').next(), Some(span::ARCHIVE_SHA256));
}
