//! The rules behind an answer, and the round (document 02, 2.5), as the archive names them.

use std::collections::BTreeSet;

use span::Answer;
use ward_reader::Sheet;

use crate::laws::Source;

/// What is behind an accepted answer of class least or none.
#[derive(Clone, Debug, Default, PartialEq, Eq)]
pub struct Reasons {
    /// Rules, ascending, and opening hours: with these alone the answer is the same.
    pub rules: Vec<Source>,
    /// For least, the moments of the binding round, from the one that comes again.
    pub round: Vec<usize>,
    /// For each of these the rule by which it hands on to the next, as the judged answer picks it; nothing where that is the span.
    pub steps: Vec<Option<Source>>,
}

/// What the archive says is behind an answer to a problem of one question; nothing where the answer is bottomless. Rule numbers count
/// from 1 there, and become what each rule comes from.
pub fn behind(sheet: &Sheet, problem: &[u8], answer: &[u8], sources: &[Vec<Source>]) -> Option<Reasons> {
    let named = span::reasons(problem, answer).ok()?;
    let picks = match span::read(answer, sheet.moments.len() - 1, sources.len()) {
        Ok(Answer::Least { picks, .. }) => picks,
        _ => Vec::new(),
    };
    let round = named.round.unwrap_or_default();
    let picked = |moment: usize| {
        let sources = sources.get(usize::from(*picks.get(moment)?).checked_sub(1)?)?;
        latest(sheet, sources, moment)
    };
    let rules: BTreeSet<Source> = named.rules.iter().flat_map(|number| sources[number - 1].iter().copied()).collect();
    Some(Reasons {
        rules: rules.into_iter().collect(),
        steps: round.iter().map(|&moment| picked(moment)).collect(),
        round,
    })
}

/// Of rules that were joined, the one that says most of a moment.
fn latest(sheet: &Sheet, sources: &[Source], moment: usize) -> Option<Source> {
    let lead = |source: &Source| match source {
        Source::Rule(place) => {
            let rule = &sheet.rules[*place];
            let off = rule.right.iter().flatten().next().copied().unwrap_or(0);
            rule.left[moment].map(|lead| lead - off)
        }
        _ => None,
    };
    sources.iter().copied().max_by_key(lead)
}

#[cfg(test)]
mod tests {
    use super::*;
    use crate::answer::{Body, Report, Wishes};
    use crate::terminal::{self, Look};
    use crate::{json, page};

    /// Example E, with what document 02 says is behind it: rule 1, and the round over the anchor and the bed.
    fn explained() -> Report {
        let text = "moments: bed, nurse\nanchor + 30 <= bed\nanchor <= nurse\nspan: from anchor to bed\n";
        let mut report = Report::read("e.txt", text.as_bytes());
        report.answer(Wishes::of(true));
        let Body::Least(least) = &report.spans[0].body else { panic!("a least span") };
        let rule = Source::Rule(0);
        let named = Reasons { rules: vec![rule], round: vec![0, 1], steps: vec![Some(rule), None] };
        assert_eq!(least.reasons.as_ref(), Some(&named));
        report
    }

    #[test]
    fn the_terminal_tells_them_in_the_rules_own_words() {
        let report = explained();
        let told = terminal::report(&report, Look { width: 80, signs: true, colour: false });
        for part in [
            "The rule behind it; with this one alone the least span is the same:\n  rule 1 (line 2): anchor + 30 <= bed, that is bed at least 30 min after the anchor\n",
            "The chain that binds it runs over anchor and bed, by rule 1 and the span.\n",
            "◆ planned, and of the chain",
        ] {
            assert!(told.contains(part), "{told}");
        }
        assert_eq!(told.matches('◆').count(), 3, "{told}");
    }

    #[test]
    fn the_sheet_marks_the_round() {
        let page = page::all(&[explained()], false);
        assert_eq!(page.matches("<circle class=\"ring\"").count(), 3, "{page}");
        assert!(page.contains("of the chain that binds the span"), "{page}");
        assert!(
            page.contains("anchor + 30 &lt;= bed, that is bed at least 30 min after the anchor <span class=\"line\">rule 1, line 2, of the chain</span>"),
            "{page}"
        );
    }

    /// In every example each moment of a round stands on the left of its step's row, and the next one on the right.
    #[test]
    fn a_round_hands_on_over_its_rules() {
        let folder = concat!(env!("CARGO_MANIFEST_DIR"), "/../examples/problems");
        let mut count = 0;
        for entry in std::fs::read_dir(folder).expect("the problems' folder") {
            let path = entry.expect("a file").path();
            if path.extension().is_none_or(|extension| extension != "txt") {
                continue;
            }
            let mut report = Report::read("day.txt", &std::fs::read(path).expect("a text"));
            report.answer(Wishes::of(false));
            let sheet = report.sheet.expect("a good text");
            for (question, span) in sheet.questions.iter().zip(&report.spans) {
                let Body::Least(least) = &span.body else { continue };
                let Some(Reasons { rules, round, steps }) = &least.reasons else { continue };
                assert_eq!(steps.iter().filter(|step| step.is_none()).count(), 1);
                for ((moment, next), step) in round.iter().zip(round.iter().cycle().skip(1)).zip(steps) {
                    let row = match step {
                        None => &question.row,
                        Some(Source::Rule(place)) => &sheet.rules[*place],
                        Some(_) => continue,
                    };
                    assert!(row.left[*moment].is_some() && row.right[*next].is_some() && row.in_force);
                    assert!(step.is_none_or(|source| rules.contains(&source)));
                    count += 1;
                }
            }
        }
        assert!(count >= 20, "{count}");
    }

    #[test]
    fn programs_get_numbers_and_names() {
        let told = json::all(&[explained()]);
        let told: String = told.split_whitespace().collect();
        assert!(
            told.contains(
                "\"rules_behind\":[1],\"rules_needed\":[1],\"hours_needed\":[],\"roles\":[],\"round\":[\"anchor\",\"bed\"],\"round_rules\":[1,null]"
            ),
            "{told}"
        );
    }
}
