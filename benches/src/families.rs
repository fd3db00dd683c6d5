//! The families of problems that are measured.

use random::Random;
use reference::LARGEST;

pub const BLANK: i32 = i32::MIN;

/// n + 1 left and n + 1 right coefficients.
pub type Row = (Vec<i32>, Vec<i32>);

/// A problem as rows, the objective last.
#[derive(Clone)]
pub struct Draft {
    pub variables: usize,
    pub rows: Vec<Row>,
}

/// A record of a kind: numbers of two bytes, then rows.
fn record(kind: u16, numbers: &[usize], rows: &[&Row]) -> Vec<u8> {
    let mut bytes = vec![0; 4];
    bytes.extend(kind.to_le_bytes());
    bytes.extend(numbers.iter().flat_map(|&number| (number as u16).to_le_bytes()));
    for coefficient in rows.iter().flat_map(|(left, right)| left.iter().chain(right)) {
        bytes.extend(coefficient.to_le_bytes());
    }
    let length = bytes.len() as u32 - 4;
    bytes[..4].copy_from_slice(&length.to_le_bytes());
    bytes
}

impl Draft {
    fn new(n: usize, m: usize) -> Draft {
        Draft { variables: n + 1, rows: vec![(vec![BLANK; n + 1], vec![BLANK; n + 1]); m + 1] }
    }

    /// The record of kind 1.
    pub fn bytes(&self) -> Vec<u8> {
        record(1, &[self.variables - 1, self.rows.len() - 1], &self.rows.iter().collect::<Vec<_>>())
    }

    /// The same rules with another objective.
    pub fn asking(&self, question: &Row) -> Draft {
        let mut draft = self.clone();
        *draft.rows.last_mut().expect("the objective") = question.clone();
        draft
    }

    /// The record of kind 3: the same rules with several objectives.
    pub fn bytes_asking(&self, questions: &[Row]) -> Vec<u8> {
        let m = self.rows.len() - 1;
        let rows: Vec<&Row> = self.rows[..m].iter().chain(questions).collect();
        record(3, &[self.variables - 1, m, questions.len()], &rows)
    }
}

#[derive(Clone, Copy, Debug, PartialEq, Eq)]
pub enum Family {
    Ward,
    Contradiction,
    DenseSmall,
    DenseFull,
}

pub const FAMILIES: [Family; 4] = [Family::Ward, Family::Contradiction, Family::DenseSmall, Family::DenseFull];

impl Family {
    pub fn name(self) -> &'static str {
        match self {
            Family::Ward => "a ward's day",
            Family::Contradiction => "contradiction by a minute",
            Family::DenseSmall => "dense, small leads",
            Family::DenseFull => "dense, full leads",
        }
    }

    /// The class that problems of the family are chosen to have.
    pub fn class(self) -> u16 {
        match self {
            Family::Ward | Family::DenseSmall => 1,
            Family::Contradiction | Family::DenseFull => 3,
        }
    }

    pub fn draft(self, random: &mut Random, n: usize, m: usize) -> Draft {
        match self {
            Family::Ward => ward(random, n, m),
            Family::Contradiction => contradiction(random, n, m),
            Family::DenseSmall => dense_small(random, n, m),
            Family::DenseFull => dense_full(random, n, m),
        }
    }

    /// Another question of the kind that the family's problems have.
    pub fn question(self, random: &mut Random, n: usize) -> Row {
        let mut question = (vec![BLANK; n + 1], vec![BLANK; n + 1]);
        match self {
            Family::Ward | Family::Contradiction => groups(random, &mut question),
            Family::DenseSmall => fill(random, &mut question, 60),
            Family::DenseFull => fill(random, &mut question, LARGEST),
        }
        question
    }
}

/// A hidden plan of one day: the anchor at 0, the others within 24 hours.
fn day(random: &mut Random, variables: usize) -> Vec<i32> {
    let mut plan: Vec<i32> = (0..variables).map(|_| random.lead(0, 1_440)).collect();
    plan[0] = 0;
    plan
}

/// One or two places of a list.
fn few(random: &mut Random, variables: usize) -> Vec<usize> {
    let count = 1 + random.below(3) / 2;
    (0..count).map(|_| random.below(variables)).collect()
}

/// The largest of coefficient + value.
fn largest(row: &[i32], plan: &[i32]) -> Option<i32> {
    let finite = row.iter().zip(plan).filter(|(coefficient, _)| **coefficient != BLANK);
    finite.map(|(coefficient, value)| coefficient + value).max()
}

/// Sparse and feasible: each rule says that the later of one or two moments, and so long after, is at most the later of
/// one or two others; a hidden plan keeps all of them with up to an hour to spare. The question is the gap between two
/// groups of moments.
fn ward(random: &mut Random, n: usize, m: usize) -> Draft {
    let mut draft = Draft::new(n, m);
    let plan = day(random, n + 1);
    for (left, right) in &mut draft.rows[..m] {
        for place in few(random, n + 1) {
            left[place] = random.lead(-30, 120);
        }
        let side = largest(left, &plan).unwrap_or(0);
        for place in few(random, n + 1) {
            right[place] = (side - plan[place] + random.lead(0, 60)).clamp(-LARGEST, LARGEST);
        }
    }
    groups(random, &mut draft.rows[m]);
    draft
}

/// Two groups of up to three moments.
fn groups(random: &mut Random, (first, second): &mut Row) {
    let variables = first.len();
    for _ in 0..3 {
        first[random.below(variables)] = random.lead(-30, 30);
        second[random.below(variables)] = random.lead(-30, 30);
    }
}

/// Every coefficient of a row anywhere within a width.
fn fill(random: &mut Random, (left, right): &mut Row, width: i32) {
    for coefficient in left.iter_mut().chain(right) {
        *coefficient = random.lead(-width, width);
    }
}

/// A ward's day in which a chain of moments and the way back from its last contradict each other by one minute.
fn contradiction(random: &mut Random, n: usize, m: usize) -> Draft {
    let mut draft = ward(random, n, m);
    let mut sum = 0;
    let links = n.min(m - 1);
    for link in 0..links {
        let gap = random.lead(5, 40);
        sum += gap;
        let (left, right) = &mut draft.rows[link];
        left.fill(BLANK);
        right.fill(BLANK);
        left[link] = gap;
        right[link + 1] = 0;
    }
    let (left, right) = &mut draft.rows[links];
    left.fill(BLANK);
    right.fill(BLANK);
    left[links] = 0;
    right[0] = sum - 1;
    draft
}

/// Every coefficient within an hour; a hidden plan keeps the rules.
fn dense_small(random: &mut Random, n: usize, m: usize) -> Draft {
    let mut draft = Draft::new(n, m);
    let mut plan: Vec<i32> = (0..=n).map(|_| random.lead(-30, 30)).collect();
    plan[0] = 0;
    for row in &mut draft.rows {
        fill(random, row, 60);
    }
    for (left, right) in &mut draft.rows[..m] {
        let place = random.below(n + 1);
        let side = largest(left, &plan).unwrap_or(0);
        if largest(right, &plan) < Some(side) {
            right[place] = side - plan[place];
        }
    }
    draft
}

/// Every coefficient anywhere within the limits.
fn dense_full(random: &mut Random, n: usize, m: usize) -> Draft {
    let mut draft = Draft::new(n, m);
    for row in &mut draft.rows {
        fill(random, row, LARGEST);
    }
    draft
}
