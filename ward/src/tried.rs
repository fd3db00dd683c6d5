//! Opening hours, narrowing, joining, what-if and wishes on random small problems, each against plain loops over all plans.

use random::Random;
use span::Outcome;
use ward_reader::sheet::{Row, Way, Wish};
use ward_reader::{Lead, Sheet};

use crate::answer::{Body, Least, Verdict, Wishes};
use crate::cases::Asker;
use crate::choice::Place;
use crate::hours::{Hours, Range};
use crate::laws::{self, Source};
use crate::what_if::EASED;
use crate::{archive, plain, room, settle};

/// The first span of a sheet, answered.
fn answered(sheet: &Sheet, what_if: bool) -> crate::answer::Span {
    let problem = ward_reader::record::alone(sheet, 0);
    let answer = archive::answers(&problem).expect("an answer").remove(0);
    settle::span(sheet, 0, &answer, Wishes { times: false, what_if, hours: true }).expect("a span")
}

fn outcome(span: &crate::answer::Span) -> Outcome {
    match span.verdict {
        Verdict::Accepted(outcome) | Verdict::Cases(outcome, _) => outcome,
        _ => panic!("no answer"),
    }
}

fn rules(sheet: &Sheet) -> Vec<&Row> {
    sheet.rules.iter().collect()
}

/// The stamps of a plan that is told, by moment.
fn stamps(least: &Least) -> Vec<Lead> {
    let mut stamps = vec![None; least.plan.len()];
    least.plan.iter().for_each(|placed| stamps[placed.moment] = placed.stamp);
    stamps
}

/// A plan that is told keeps the rules, has the span, and is open at the admitted moments.
fn good(sheet: &Sheet, admitted: &[usize], least: &Least) {
    let plan = stamps(least);
    let row = &sheet.questions[0].row;
    assert!(plain::keeps(&rules(sheet), &plan), "{sheet:?} {plan:?}");
    let span = plain::side(&row.left, &plan).expect("an end") - plain::side(&row.right, &plan).expect("a start");
    assert_eq!(span, least.minutes, "{sheet:?} {plan:?}");
    assert!(admitted.iter().all(|&moment| plan[moment].is_none_or(|stamp| plain::open(sheet, stamp))), "{plan:?}");
}

/// The admitted moments that some rule or the span speaks of.
fn admitted(sheet: &Sheet) -> Vec<usize> {
    sheet.admits.iter().copied().filter(|&moment| !ward_reader::vain::free(sheet, 0, moment)).collect()
}

#[test]
fn opening_hours_give_the_least_span_of_all_open_plans() {
    let mut random = Random::new(330);
    let (mut counts, mut longer, mut most) = ([0; 3], 0, 0);
    for _ in 0..2_400 {
        let sheet = plain::sheet(&mut random, true);
        let span = answered(&sheet, false);
        let admitted = admitted(&sheet);
        let wanted = plain::least(&sheet, &rules(&sheet), &admitted, &sheet.questions[0].row);
        let alone = plain::least(&sheet, &rules(&sheet), &[], &sheet.questions[0].row);
        let found = outcome(&span);
        assert_eq!(found, wanted, "{sheet:?}");
        if let Body::Least(least) = &span.body {
            good(&sheet, &admitted, least);
        }
        counts[match found {
            Outcome::Least(_) => 0,
            Outcome::Bottomless => 1,
            Outcome::NoPlan => 2,
        }] += 1;
        longer += (found != alone) as usize;
        most = most.max(span.kept.map_or(0, |kept| kept.cases));
    }
    assert!(counts.iter().all(|&count| count >= 100) && longer >= 300 && most >= 10, "{counts:?} {longer} {most}");
}

/// A part of a sheet's rules and hours.
fn part(sheet: &Sheet, needed: &[Source], but: Option<Source>) -> (Vec<usize>, Vec<usize>) {
    let kept = |source: Source| needed.contains(&source) && but != Some(source);
    let rules = (0..sheet.rules.len()).filter(|&place| kept(Source::Rule(place))).collect();
    (rules, sheet.admits.iter().copied().filter(|&moment| kept(Source::Hours(moment))).collect())
}

/// With what is needed alone the answer is the same, and without any one of it there is a smaller one.
fn narrow(sheet: &Sheet, needed: &[Source], found: Outcome) {
    let least = |but: Option<Source>| {
        let (rules, hours) = part(sheet, needed, but);
        let rules: Vec<&Row> = rules.iter().map(|&place| &sheet.rules[place]).collect();
        plain::least(sheet, &rules, &hours, &sheet.questions[0].row)
    };
    assert_eq!(least(None), found, "{needed:?} {sheet:?}");
    for &source in needed {
        let other = least(Some(source));
        let smaller = match (found, other) {
            (Outcome::Least(found), Outcome::Least(other)) => other < found,
            (_, Outcome::NoPlan) => false,
            (found, _) => found != Outcome::Bottomless,
        };
        assert!(smaller, "{source:?} of {needed:?}: {found:?} {other:?} {sheet:?}");
    }
}

#[test]
fn what_is_behind_a_span_is_needed() {
    let mut random = Random::new(331);
    let (mut narrowed, mut rules, mut hours) = (0, 0, 0);
    for number in 0.. {
        if narrowed == 2_000 {
            break;
        }
        let sheet = plain::sheet(&mut random, number % 8 == 0);
        let span = answered(&sheet, false);
        let needed = match &span.body {
            Body::Least(least) => {
                assert!(!least.grounds.untried);
                least.grounds.needed.clone()
            }
            Body::None(crate::why::Blocked::Shut(grounds)) => grounds.needed.clone(),
            _ => continue,
        };
        narrow(&sheet, &needed, outcome(&span));
        narrowed += 1;
        rules += (needed.len() > 1) as usize;
        hours += needed.iter().any(|source| matches!(source, Source::Hours(_))) as usize;
    }
    assert!(rules >= 300 && hours >= 100, "{rules} {hours}");
}

/// Lifted and eased rules, against the plain loop over the rules as they are then.
#[test]
fn what_if_is_what_every_plan_says() {
    let mut random = Random::new(332);
    let (mut lifted, mut changed) = (0, 0);
    for number in 0..500 {
        let sheet = plain::sheet(&mut random, number % 10 == 0);
        let span = answered(&sheet, true);
        let Body::Least(least) = &span.body else { continue };
        for trial in &least.what_if {
            let Source::Rule(place) = trial.source else { continue };
            same(&sheet, trial.lifted, place, None);
            lifted += 1;
            for (then, minutes) in trial.eased.iter().zip(EASED) {
                let less = sheet.rules[place].left.iter().map(|lead| lead.map(|lead| lead - minutes)).collect();
                let eased = Row { left: less, ..sheet.rules[place].clone() };
                same(&sheet, then.expect("leads are small"), place, Some(eased));
                changed += (*then != Some(Ok(Outcome::Least(least.minutes)))) as usize;
            }
        }
    }
    assert!(lifted >= 100 && changed >= 200, "{lifted} {changed}");
}

/// The least span with another rule in the place of one, or without it, with opening hours or without.
fn with(sheet: &Sheet, place: usize, rule: Option<&Row>, admitted: &[usize]) -> Outcome {
    let mut rules: Vec<&Row> = sheet.rules.iter().collect();
    rules.remove(place);
    rules.extend(rule);
    plain::least_near(sheet, &rules, admitted, &sheet.questions[0].row, plain::WIDE)
}

/// What was found is what the loop found.
fn same(sheet: &Sheet, found: crate::what_if::Then, place: usize, rule: Option<Row>) {
    let found = found.expect("an answer");
    let wanted = with(sheet, place, rule.as_ref(), &admitted(sheet));
    assert_eq!(found, wanted, "{sheet:?}");
}

/// Rules that are joined by their right sides are kept by the same plans.
#[test]
fn joined_rules_are_kept_by_the_same_plans() {
    let mut random = Random::new(333);
    let mut fewer = 0;
    for _ in 0..2_000 {
        let sheet = plain::sheet(&mut random, false);
        let laws = laws::in_force(&sheet);
        let joined = room::joined(&laws);
        fewer += (joined.len() < laws.len()) as usize;
        let own = rules(&sheet);
        let joined: Vec<Row> = joined.into_iter().map(|(_, law)| laws::row(law.left, law.right)).collect();
        let joined: Vec<&Row> = joined.iter().collect();
        let stamps: Vec<Lead> = [None].into_iter().chain((-9..=9).map(Some)).collect();
        for &a in &stamps {
            for &b in &stamps {
                let plan = [Some(0), a, b];
                assert_eq!(plain::keeps(&own, &plan), plain::keeps(&joined, &plan), "{plan:?} {sheet:?}");
            }
        }
    }
    assert!(fewer >= 500, "{fewer}");
}

/// The wishes of a text, one after another, against the plans of a box that have the least span.
#[test]
fn wishes_lead_to_the_first_of_all_plans_in_their_order() {
    let mut random = Random::new(334);
    let mut counts = [0; 3];
    for number in 0..900 {
        let mut sheet = plain::sheet(&mut random, number % 3 == 0);
        let mut order = [1, 2];
        if random.chance(1, 2) {
            order.reverse();
        }
        let way = |random: &mut Random| if random.chance(1, 2) { Way::Early } else { Way::Late };
        sheet.wishes = order.iter().map(|&moment| Wish { moment, way: way(&mut random) }).collect();
        let span = answered(&sheet, false);
        let Body::Least(least) = &span.body else { continue };
        let chosen = least.chosen.as_ref().expect("a choice");
        let admitted = admitted(&sheet);
        good(&sheet, &admitted, least);
        let plan = stamps(least);
        if admitted.iter().any(|&moment| plan[moment].is_some_and(|stamp| stamp.abs() > 100)) {
            continue;
        }
        let mut plans = of_span(&sheet, &admitted, least.minutes);
        for (wish, place) in &chosen.wishes {
            let kind = led(&plan, &plans, *wish, *place).unwrap_or_else(|words| panic!("{words} {sheet:?} {chosen:?}"));
            counts[kind] += 1;
            if let Place::At(minute) | Place::Within(minute) = place {
                plans.retain(|plan| plan[wish.moment] == Some(*minute));
            }
        }
    }
    assert!(counts[0] >= 200 && counts[1] >= 100 && counts[2] >= 1, "{counts:?}");
}

/// Whether a wish led to the first of some plans, with the kind of place that it led to.
fn led(plan: &[Lead], plans: &[[Lead; 3]], wish: Wish, place: Place) -> Result<usize, String> {
    let minutes = plans.iter().map(|plan| plan[wish.moment]);
    let first = match wish.way {
        Way::Early if matches!(place, Place::Within(_)) => minutes.flatten().min(),
        Way::Early => minutes.min().flatten(),
        Way::Late => minutes.max().flatten(),
    };
    let (kind, right) = match place {
        Place::At(minute) | Place::Within(minute) => (0, (plan[wish.moment], first) == (Some(minute), Some(minute))),
        Place::NoLimit => (1, first.is_none_or(|minute| minute.abs() >= 20)),
        Place::Never => (2, first.is_none() && wish.way == Way::Late),
        Place::NotTold(_) => (3, false),
    };
    right.then_some(kind).ok_or_else(|| format!("{wish:?} {place:?} {first:?}"))
}

/// The plans near the anchor that keep the rules, have the span, and are open.
fn of_span(sheet: &Sheet, admitted: &[usize], minutes: i32) -> Vec<[Lead; 3]> {
    let stamps: Vec<Lead> = [None].into_iter().chain((-40..=40).map(Some)).collect();
    let row = &sheet.questions[0].row;
    let has = |plan: &[Lead; 3]| {
        let span = plain::side(&row.left, plan).zip(plain::side(&row.right, plan)).map(|(end, start)| end - start);
        let open = |&moment: &usize| plan[moment].is_none_or(|stamp| plain::open(sheet, stamp));
        span == Some(minutes) && admitted.iter().all(open) && plain::keeps(&rules(sheet), plan)
    };
    stamps.iter().flat_map(|&a| stamps.iter().map(move |&b| [Some(0), a, b])).filter(has).collect()
}

/// Without opening hours a question is one case.
#[test]
fn a_question_without_hours_is_one_case() {
    let mut random = Random::new(335);
    for _ in 0..200 {
        let sheet = plain::sheet(&mut random, false);
        let found = Asker::new(None).ask(&laws::in_force(&sheet), &sheet.questions[0].row).expect("an answer");
        assert_eq!((found.cases, found.outcome.ok()), (1, found.alone));
    }
}

/// A random problem of five moments over two weeks, three of them admitted, with a window or two in a week.
fn weeks(random: &mut Random) -> Sheet {
    let hours =
        ["Monday 9:00-12:00", "Wednesday 8:00-10:00, Thursday 14:00-14:30", "Sunday 0:00-24:00"][random.below(3)];
    let text = format!(
        "moments: a, b, c, d, e\nanchor: Tuesday 10:00\nopen: {hours}\nadmits: a, c, e\nspan: from anchor to a\n"
    );
    let mut sheet = ward_reader::read(text.as_bytes(), &archive::clock()).sheet.expect("a good text");
    for _ in 0..3 + random.below(7) {
        let (one, other) = (random.below(6), 1 + random.below(5));
        if one == other {
            continue;
        }
        let lead = random.lead(-1_500, 6_000);
        let mut right = laws::only(other, 6, 0);
        let (left, right) = match random.below(4) {
            0 => (laws::only(other, 6, 0), laws::only(one, 6, random.lead(0, 9_000))),
            1 => {
                right[1 + random.below(5)] = Some(0);
                (laws::only(one, 6, lead), right)
            }
            _ => (laws::only(one, 6, lead), right),
        };
        sheet.rules.push(laws::row(left, right));
    }
    sheet.questions[0].row = laws::row(laws::only(random.below(6), 6, 0), laws::only(random.below(6), 6, 0));
    sheet
}

/// Every choice of windows, one after another: the answer of all of them together.
fn every_case(laws: &[laws::Law], hours: &Hours, question: &Row) -> Outcome {
    let count = hours.windows.len() + 1;
    let mut best = Outcome::NoPlan;
    for number in 0..count.pow(hours.moments.len() as u32) {
        let mut all = laws.to_vec();
        for (place, &moment) in hours.moments.iter().enumerate() {
            let window = number / count.pow(place as u32) % count;
            all.extend(hours.laws(moment, Range { from: window, to: window }, question.left.len()));
        }
        best = match (best, laws::judged(&all, question).expect("an answer").expect("room").outcome) {
            (_, Outcome::Bottomless) => return Outcome::Bottomless,
            (Outcome::Least(best), Outcome::Least(span)) => Outcome::Least(best.min(span)),
            (Outcome::NoPlan, other) => other,
            (best, _) => best,
        };
    }
    best
}

#[test]
fn cases_that_are_cut_give_what_all_choices_of_windows_give() {
    let mut random = Random::new(336);
    let (mut counts, mut longer) = ([0; 3], 0);
    for _ in 0..500 {
        let sheet = weeks(&mut random);
        let (laws, row) = (laws::in_force(&sheet), &sheet.questions[0].row);
        let Some(hours) = Hours::of(&sheet, 0) else { continue };
        let found = Asker::new(Some(hours.clone())).ask(&laws, row).expect("an answer");
        let (outcome, wanted) = (found.outcome.expect("an end"), every_case(&laws, &hours, row));
        assert_eq!(outcome, wanted, "{sheet:?}");
        counts[match outcome {
            Outcome::Least(_) => 0,
            Outcome::Bottomless => 1,
            Outcome::NoPlan => 2,
        }] += 1;
        longer += (found.alone != Some(outcome)) as usize;
    }
    assert!(counts.iter().all(|&count| count >= 40) && longer >= 60, "{counts:?} {longer}");
}
