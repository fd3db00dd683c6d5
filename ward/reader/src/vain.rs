//! What a text has in vain: moments that nothing speaks of, and rules that say nothing.

use crate::remark::{Remark, Weight};
use crate::sheet::{Row, Sheet};

/// Whether every plan keeps a rule: each moment on its left stands on its right, with at least the same lead. (Where one
/// does not, a plan that has this moment late and leaves the others out breaks the rule.)
pub fn says_nothing(rule: &Row) -> bool {
    rule.left.iter().zip(&rule.right).all(|(left, right)| left <= right)
}

/// Whether no plan keeps a rule that has a moment of its right side: each of these stands on its left with a larger lead.
pub fn forbids_own(rule: &Row) -> bool {
    let mut late = (0..rule.right.len()).filter(|&moment| rule.right[moment].is_some()).peekable();
    late.peek().is_some() && late.all(|moment| rule.left[moment] > rule.right[moment])
}

/// Whether a moment can be at any minute of a plan, or be left out: neither this span nor a rule in force that says
/// something has it.
pub fn free(sheet: &Sheet, question: usize, moment: usize) -> bool {
    let speaking = sheet.in_force().filter(|rule| !says_nothing(rule)).chain([&sheet.questions[question].row]);
    moment != 0 && speaking.flat_map(|row| [row.left[moment], row.right[moment]]).all(|lead| lead.is_none())
}

/// What the writer of a text may not have meant.
pub fn warnings(sheet: &Sheet) -> Vec<Remark> {
    let mut warnings = Vec::new();
    let mut warn = |place, message: String, hint: &str| {
        warnings.push(Remark { weight: Weight::Warning, place, message, hint: Some(hint.into()), fixes: Vec::new() })
    };
    for (number, moment) in sheet.moments.iter().enumerate() {
        if (0..sheet.questions.len()).all(|question| free(sheet, question, number)) {
            let message = format!("'{}' is free: no span and no rule says anything of it", moment.name);
            warn(moment.place, message, "a rule is missing, or the name is not needed");
        }
    }
    for rule in sheet.rules.iter().filter(|rule| says_nothing(rule)) {
        warn(rule.place, "this rule says nothing: every plan keeps it".into(), "are the sides the right way round?");
    }
    warnings
}

#[cfg(test)]
mod tests {
    use super::*;
    use crate::sheet::Lead;
    use crate::Clock;

    fn sheet(rules: &str) -> Sheet {
        let text = format!("moments: a, b, c\n{rules}\nspan: from a to b\n");
        crate::read(text.as_bytes(), &Clock::unjudged()).sheet.expect("a good text")
    }

    #[test]
    fn rules_that_say_nothing() {
        for rule in ["a <= a", "a <= later of (a + 1), b", "later of a, b <= later of a, b, c"] {
            assert!(says_nothing(&sheet(rule).rules[0]), "{rule}");
        }
        for rule in ["a <= nothing", "a <= b", "later of a, b <= a", "anchor <= a"] {
            assert!(!says_nothing(&sheet(rule).rules[0]), "{rule}");
        }
    }

    #[test]
    fn rules_that_forbid_their_own_moments() {
        let rule = |left: [Lead; 2], right: [Lead; 2]| {
            forbids_own(&Row { left: left.to_vec(), right: right.to_vec(), ..sheet("a <= b").rules[0].clone() })
        };
        assert!(rule([None, Some(1)], [None, Some(0)]));
        assert!(rule([Some(3), Some(1)], [None, Some(0)]));
        assert!(!rule([None, Some(1)], [Some(0), Some(0)]));
        assert!(!rule([None, Some(0)], [None, Some(0)]));
        assert!(!rule([None, Some(1)], [None, None]));
    }

    /// On every rule of the anchor and one moment with leads blank or -1 to 1, against plans that are far enough apart.
    #[test]
    fn a_rule_says_nothing_exactly_when_every_plan_keeps_it() {
        let leads = [None, Some(-1), Some(0), Some(1)];
        let plans = [None, Some(-9), Some(-1), Some(0), Some(1), Some(9)];
        let side = |leads: [Lead; 2], plan: Lead| leads[0].max(leads[1].zip(plan).map(|(lead, minute)| lead + minute));
        for number in 0..256 {
            let [a, b, c, d] = [1, 4, 16, 64].map(|place| leads[number / place % 4]);
            let rule = Row { left: vec![a, b], right: vec![c, d], ..sheet("a <= b").rules[0].clone() };
            let kept = plans.iter().all(|plan| side([a, b], *plan) <= side([c, d], *plan));
            assert_eq!(says_nothing(&rule), kept, "{rule:?}");
        }
    }

    #[test]
    fn free_moments() {
        let frees = |rules: &str| (0..4).filter(|&moment| free(&sheet(rules), 0, moment)).collect::<Vec<_>>();
        assert_eq!(frees("a <= b"), [3]);
        assert_eq!(frees("a <= c"), [0; 0]);
        assert_eq!(frees("c <= nothing"), [0; 0]);
        assert_eq!(frees("c <= c + 5"), [3]);
        assert_eq!(frees("suspended: a <= c"), [3]);
    }
}
