//! The order of moments at the same minute: where a rule says that one is not later than another, it stands first.

use ward_reader::{Lead, Sheet};

/// A rank for each moment, by which moments of the same minute are put in order. Where rules go round in a circle, and where they say
/// nothing, the order is that of the text.
pub fn ranks(sheet: &Sheet, stamps: &[Lead]) -> Vec<usize> {
    let count = stamps.len();
    let before = |early: usize, late: usize| {
        stamps[early].is_some()
            && stamps[early] == stamps[late]
            && sheet.in_force().any(|rule| {
                let minutes = rule.left[early].zip(rule.right[late]).map(|(left, right)| left - right);
                early != late && minutes.is_some_and(|minutes| minutes >= 0)
            })
    };
    let mut ranks = vec![0; count];
    let mut left: Vec<usize> = (0..count).collect();
    for rank in 0..count {
        let free = |&place: &usize| !left.iter().any(|&other| before(other, left[place]));
        let place = (0..left.len()).find(free).unwrap_or(0);
        ranks[left.remove(place)] = rank;
    }
    ranks
}
