//! What a writer may have meant.

/// The candidate that a word was probably meant to be, if one is near.
pub fn near<'a>(word: &str, candidates: impl Iterator<Item = &'a str>) -> Option<&'a str> {
    all_near(word, candidates).first().copied()
}

/// All candidates that a word may have been meant to be, the nearest first: where one is near, those that are nearly so too.
pub fn all_near<'a>(word: &str, candidates: impl Iterator<Item = &'a str>) -> Vec<&'a str> {
    if word.len() > 4 * crate::limits::NAME {
        return Vec::new();
    }
    let small = word.to_lowercase();
    let far = (small.chars().count() / 3 + 1).min(3);
    let mut found: Vec<(usize, &str)> = candidates
        .map(|candidate| (steps(&small, &candidate.to_lowercase()), candidate))
        .filter(|(steps, _)| *steps < 3)
        .collect();
    found.sort();
    let wide = if small.chars().count() > 4 && found.first().is_some_and(|(steps, _)| *steps < far) { 3 } else { far };
    found.retain(|(steps, _)| *steps < wide);
    found.into_iter().map(|(_, candidate)| candidate).collect()
}

/// How many letters must be put in, left out or changed, or neighbours swapped, to make one word of the other.
fn steps(a: &str, b: &str) -> usize {
    let (a, b): (Vec<char>, Vec<char>) = (a.chars().collect(), b.chars().collect());
    let mut rows = vec![(0..=b.len()).collect::<Vec<usize>>()];
    for i in 1..=a.len() {
        let mut row = vec![i];
        for j in 1..=b.len() {
            let above = &rows[i - 1];
            let mut best = (above[j] + 1).min(row[j - 1] + 1).min(above[j - 1] + (a[i - 1] != b[j - 1]) as usize);
            if i > 1 && j > 1 && a[i - 1] == b[j - 2] && a[i - 2] == b[j - 1] {
                best = best.min(rows[i - 2][j - 2] + 1);
            }
            row.push(best);
        }
        rows.push(row);
    }
    rows[a.len()][b.len()]
}

#[cfg(test)]
mod tests {
    use super::*;

    #[test]
    fn near_words_are_found() {
        let names = ["ready", "cleaned", "ambulance", "a"];
        let near = |word: &str| near(word, names.into_iter());
        assert_eq!(near("Ready"), Some("ready"));
        assert_eq!(near("claened"), Some("cleaned"));
        assert_eq!(near("ambulence"), Some("ambulance"));
        assert_eq!(near("AMBULANCE"), Some("ambulance"));
        assert_eq!(near("A"), Some("a"));
        assert_eq!(near("b"), None);
        assert_eq!(near("nurse"), None);
    }
}
