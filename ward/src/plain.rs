//! Plain loops over every plan of a box, against which the tool is tried: no engine, no checker, no cases. Leads are within 3 minutes,
//! so that what is attained lies near the anchor or near a window, and what has no end shows by a time that is far away.

use random::Random;
use ward_reader::sheet::{Question, Row};
use ward_reader::{Lead, Sheet};

use span::Outcome;

/// The minutes around the anchor, and around the same minute of other weeks, that a plan of a box has; and of a box for longer leads.
pub const NEAR: i32 = 22;
pub const WIDE: i32 = 45;
/// A time that shows that there is no end.
pub const FAR: i32 = 100_000;
const WEEK: i32 = 10_080;

/// The later of what a side holds.
pub fn side(leads: &[Lead], plan: &[Lead]) -> Lead {
    leads.iter().zip(plan).filter_map(|(lead, stamp)| Some((*lead)? + (*stamp)?)).max()
}

/// Whether a plan keeps some rules.
pub fn keeps(rules: &[&Row], plan: &[Lead]) -> bool {
    rules.iter().all(|rule| side(&rule.left, plan) <= side(&rule.right, plan))
}

/// Whether a minute is open, by a look at every window of the week.
pub fn open(sheet: &Sheet, stamp: i32) -> bool {
    let anchor = sheet.anchor.expect("an anchor");
    let minute = (anchor.day.expect("a day") as i32 * 1_440 + anchor.minute + stamp).rem_euclid(WEEK);
    sheet.week.iter().any(|window| (window.opening as i32..window.closing as i32).contains(&minute))
}

/// The least span of the plans of a box that keep some rules, and have the admitted moments open within 14 days or leave them out.
pub fn least(sheet: &Sheet, rules: &[&Row], admitted: &[usize], question: &Row) -> Outcome {
    least_near(sheet, rules, admitted, question, NEAR)
}

/// The same, in a box of another size.
pub fn least_near(sheet: &Sheet, rules: &[&Row], admitted: &[usize], question: &Row, most: i32) -> Outcome {
    let near = |week: i32| (-most..=most).map(move |minute| Some(week * WEEK + minute));
    let stamps = |moment: usize| -> Vec<Lead> {
        match admitted.contains(&moment) {
            true => {
                let within = (-2..=2).flat_map(near).filter(|stamp| stamp.is_none_or(|stamp| stamp.abs() <= 2 * WEEK));
                [None].into_iter().chain(within.filter(|stamp| stamp.is_none_or(|stamp| open(sheet, stamp)))).collect()
            }
            false => {
                let far = [-FAR, FAR].into_iter().flat_map(|far| (-most..=most).map(move |minute| Some(far + minute)));
                let weeks = if admitted.is_empty() { 0..=0 } else { -2..=2 };
                [None].into_iter().chain(weeks.flat_map(near)).chain(far).collect()
            }
        }
    };
    let mut best = Outcome::NoPlan;
    for &a in &stamps(1) {
        for &b in &stamps(2) {
            let plan = [Some(0), a, b];
            let Some(start) = side(&question.right, &plan).filter(|_| keeps(rules, &plan)) else { continue };
            let span = side(&question.left, &plan).map(|end| end - start).filter(|span| *span > -FAR / 2);
            best = match (best, span) {
                (Outcome::Bottomless, _) | (_, None) => return Outcome::Bottomless,
                (Outcome::Least(best), Some(span)) => Outcome::Least(best.min(span)),
                (Outcome::NoPlan, Some(span)) => Outcome::Least(span),
            };
        }
    }
    best
}

/// A side of a rule or a span: one moment or two of three, with leads within 3.
fn group(random: &mut Random) -> Vec<Lead> {
    let mut leads = vec![None; 3];
    leads[random.below(3)] = Some(random.lead(-3, 3));
    if random.chance(1, 3) {
        leads[random.below(3)] = Some(random.lead(-3, 3));
    }
    leads
}

/// A random problem of two moments and up to five rules, with opening hours of some minutes near the anchor where they are asked for.
pub fn sheet(random: &mut Random, hours: bool) -> Sheet {
    let mut text = String::from("moments: a, b\nanchor: Monday 12:00\n");
    if hours {
        let mut minute = random.lead(-9, 0);
        let mut windows = Vec::new();
        for _ in 0..1 + random.below(3) {
            let closing = minute + random.lead(1, 3);
            let time = |minute: i32| format!("{}:{:02}", (720 + minute) / 60, (720 + minute) % 60);
            windows.push(format!("Monday {}-{}", time(minute), time(closing)));
            minute = closing + random.lead(1, 5);
        }
        text += &format!("open: {}\nadmits: {}\n", windows.join(", "), ["a", "b", "a, b"][random.below(3)]);
    }
    text += "span: from anchor to a\n";
    let mut sheet = ward_reader::read(text.as_bytes(), &crate::archive::clock()).sheet.expect("a good text");
    let row = |left: Vec<Lead>, right: Vec<Lead>| crate::laws::row(left, right);
    for _ in 0..random.below(5) {
        sheet.rules.push(row(group(random), group(random)));
    }
    // Something holds most moments, so that many problems have a least span.
    for moment in [1, 2] {
        let only = crate::laws::only;
        if random.chance(3, 4) {
            sheet.rules.push(row(only(0, 3, random.lead(-3, 3)), only(moment, 3, 0)));
        }
        if random.chance(1, 3) {
            sheet.rules.push(row(only(moment, 3, 0), only(0, 3, random.lead(0, 5))));
        }
    }
    sheet.questions = vec![Question { row: row(group(random), group(random)), expected: None }];
    sheet
}
