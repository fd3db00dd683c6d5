//! What is said of opening hours that are kept: what is proved, what is tested, and within which days.

use span::Outcome;
use ward_reader::Sheet;

use crate::answer::{Body, Kept, Span};
use crate::cases::{Stopped, CASES};
use crate::told::{minutes, names};

/// Whether the answer rests on several cases. It does not where it is that of the rules alone: then no plan at all has a smaller span,
/// and the plan that is told is open, within 14 days. Nor does it for bottomless: the one case that shows it is enough.
pub fn by_cases(span: &Span) -> bool {
    match (&span.kept, &span.body) {
        (Some(kept), Body::Least(least)) => kept.alone != Outcome::Least(least.minutes),
        (Some(_), Body::None(_) | Body::Bottomless(_)) => true,
        _ => false,
    }
}

/// The line on opening hours, where they are kept or could not be.
pub fn line(sheet: &Sheet, span: &Span) -> Option<String> {
    let kept = span.kept.as_ref()?;
    Some(match &span.body {
        Body::Least(least) => {
            let planned: Vec<usize> = least.plan.iter().filter(|placed| placed.stamp.is_some()).map(|placed| placed.moment).collect();
            let (open, out): (Vec<usize>, Vec<usize>) = kept.moments.iter().partition(|moment| planned.contains(moment));
            let told = format!("Opening hours are kept: {}.", doors(sheet, &open, &out));
            match by_cases(span) {
                false => format!("{told} They cost nothing: this is the least span of the rules alone, and proved as such."),
                true => format!("{told} {} {}", union(kept, "This is the least span"), without(kept)),
            }
        }
        Body::None(_) => {
            let told = union(kept, "There is none");
            format!("{told} {} Days further away were not looked at.", without(kept))
        }
        Body::Bottomless(_) => {
            format!("Opening hours are kept: already the plans within 14 days of the anchor show it. {} judged.", were(kept.cases))
        }
        Body::Stopped(Stopped::Rules) => {
            "With the rules that keep a moment in a window there are more than 63, so that no number is told. Name fewer moments \
             behind 'admits:', or join rules."
                .into()
        }
        Body::Stopped(Stopped::Cases) => {
            format!(
                "{CASES} cases were judged without an end, and that is the limit, so that no number is told. Name fewer moments \
                 behind 'admits:', or write rules that hold them closer."
            )
        }
        Body::Claim(..) => return None,
    })
}

/// At which moments the ward is open, and which are left out.
fn doors(sheet: &Sheet, open: &[usize], out: &[usize]) -> String {
    let planned = format!("the ward is open at {}", names(sheet, open));
    let left =
        format!("{} {} left out, and needs no open ward", names(sheet, out), if out.len() == 1 { "is" } else { "are" });
    let left = if out.len() == 1 { left } else { left.replace("needs", "need") };
    match (open.is_empty(), out.is_empty()) {
        (false, true) => planned,
        (true, _) => left,
        _ => format!("{planned}; {left}"),
    }
}

fn were(cases: usize) -> String {
    if cases == 1 {
        "1 case was".into()
    } else {
        format!("{cases} cases were")
    }
}

/// What the cases show together.
fn union(kept: &Kept, what: &str) -> String {
    format!(
        "{what} within 14 days either side of the anchor: {} judged, and each is proved; that no case is missing is tested, not \
         proved.",
        were(kept.cases)
    )
}

/// The answer of the rules alone.
fn without(kept: &Kept) -> String {
    match kept.alone {
        Outcome::Least(value) => format!("Without opening hours the least span is {}.", minutes(value)),
        Outcome::Bottomless => {
            "Without opening hours spans are bottomless; later or earlier days may give a smaller one.".into()
        }
        Outcome::NoPlan => "Without opening hours there is none either.".into(),
    }
}
