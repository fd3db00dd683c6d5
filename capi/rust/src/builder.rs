//! Problems built row by row. `docs/RECORDS.md` tells the bytes.

use std::fmt;

/// The most moments beside the anchor.
pub const MOST_N: usize = 31;
/// The most rules.
pub const MOST_M: usize = 63;
/// A lead is blank or within this of 0, in minutes.
pub const MOST_LEAD: i32 = 20_160;
/// Blank as it stands in a record, for a lead, stamp or span.
pub const BLANK: i32 = i32::MIN;

/// A problem that is being built. Moments are numbers, 0 the anchor. A list names the moments that it has, each with its lead; the
/// others are blank, and so is a lead of [`BLANK`]. A row that has a fault is not added.
///
/// ```
/// # fn main() -> Result<(), Box<dyn std::error::Error>> {
/// // One moment, 30 minutes after the anchor at the earliest, and 20 at the latest.
/// let mut problem = span::Problem::new(1)?;
/// problem.rule(&[(0, 30)], &[(1, 0)])?;
/// let late = problem.rule(&[(1, 0)], &[(0, 20)])?;
/// problem.question(&[(1, 0)], &[(0, 0)])?;
/// assert_eq!(problem.solve()?[0].to_string(), "none");
///
/// let fault = problem.rule(&[(0, 30), (2, 0)], &[(1, 0)]).unwrap_err();
/// assert_eq!(fault.to_string(), "rule 3, left list, moment 2: there is no such moment");
///
/// // A lifted rule keeps its number.
/// problem.in_force(late, false)?;
/// assert_eq!(problem.solve()?[0].to_string(), "least 30");
/// # Ok(())
/// # }
/// ```
#[derive(Clone, Debug, PartialEq, Eq)]
pub struct Problem {
    moments: usize,
    rules: Vec<Leads>,
    states: Vec<bool>,
    questions: Vec<Leads>,
}

/// The leads of a row as they stand in a record: the left list, then the right one.
type Leads = Vec<i32>;

/// A row of a problem, counted from 1.
#[derive(Clone, Copy, Debug, PartialEq, Eq)]
pub enum Row {
    /// A rule.
    Rule(usize),
    /// A question.
    Question(usize),
}

/// A list of a row; of a question left is the first and right the second.
#[derive(Clone, Copy, Debug, PartialEq, Eq)]
pub enum Side {
    /// The left or first list.
    Left,
    /// The right or second list.
    Right,
}

/// Why a problem cannot be built, and where.
#[derive(Clone, Copy, Debug, PartialEq, Eq)]
pub struct Fault {
    /// The row, where it is about one.
    pub row: Option<Row>,
    /// The list and the moment, where it is about a lead.
    pub lead: Option<(Side, usize)>,
    /// What is wrong there.
    pub what: What,
}

/// What is wrong with a problem.
#[derive(Clone, Copy, Debug, PartialEq, Eq)]
#[non_exhaustive]
pub enum What {
    /// More than [`MOST_N`] moments beside the anchor.
    TooManyMoments,
    /// More than [`MOST_M`] rules.
    TooManyRules,
    /// More than [`crate::QUESTIONS`] questions.
    TooManyQuestions,
    /// No question.
    NoQuestion,
    /// The row is not there.
    NoSuchRow,
    /// The moment is not there.
    NoSuchMoment,
    /// The list names the moment twice.
    Twice,
    /// The lead is beyond ±[`MOST_LEAD`].
    Beyond(i32),
    /// A rule's left list is all blank.
    Silent,
    /// Suspended rules and several questions: no kind of record has both, and [`Problem::alone`] takes the questions apart.
    StatesAndQuestions,
}

impl Problem {
    /// A problem of n moments beside the anchor, without rows.
    ///
    /// # Errors
    ///
    /// [`What::TooManyMoments`].
    pub fn new(n: usize) -> Result<Problem, Fault> {
        if n > MOST_N {
            return Err(Fault { row: None, lead: None, what: What::TooManyMoments });
        }
        Ok(Problem { moments: n + 1, rules: Vec::new(), states: Vec::new(), questions: Vec::new() })
    }

    /// Adds a rule, in force: the later of the left moments, each with its lead, is at most the later of the right ones. Its number,
    /// from 1 on.
    ///
    /// # Errors
    ///
    /// A fault in the row, in the words of [`What`]; the rule is then not added.
    pub fn rule(&mut self, left: &[(usize, i32)], right: &[(usize, i32)]) -> Result<usize, Fault> {
        let row = Row::Rule(self.m() + 1);
        if self.m() == MOST_M {
            return Err(row.fault(What::TooManyRules));
        }
        let leads = self.leads(row, left, right)?;
        if leads[..self.moments].iter().all(|&lead| lead == BLANK) {
            return Err(row.fault(What::Silent));
        }
        self.rules.push(leads);
        self.states.push(true);
        Ok(self.m())
    }

    /// Puts a rule in force, or suspends it.
    ///
    /// # Errors
    ///
    /// [`What::NoSuchRow`].
    pub fn in_force(&mut self, rule: usize, state: bool) -> Result<(), Fault> {
        let place = rule.checked_sub(1).and_then(|place| self.states.get_mut(place));
        *place.ok_or(Row::Rule(rule).fault(What::NoSuchRow))? = state;
        Ok(())
    }

    /// Adds a question: the span to the later of the first moments from the later of the second ones. Its place among the answers,
    /// from 0 on.
    ///
    /// # Errors
    ///
    /// A fault in the row, in the words of [`What`]; the question is then not added.
    pub fn question(&mut self, first: &[(usize, i32)], second: &[(usize, i32)]) -> Result<usize, Fault> {
        let place = self.questions.len();
        let row = Row::Question(place + 1);
        if place == crate::QUESTIONS {
            return Err(row.fault(What::TooManyQuestions));
        }
        self.questions.push(self.leads(row, first, second)?);
        Ok(place)
    }

    /// n, the moments beside the anchor.
    pub fn n(&self) -> usize {
        self.moments - 1
    }

    /// How many questions there are.
    pub fn questions(&self) -> usize {
        self.questions.len()
    }

    /// m, the rules.
    pub fn m(&self) -> usize {
        self.rules.len()
    }

    /// The record: of kind 1; of kind 3 where there are several questions; of kind 5 where a rule is suspended.
    ///
    /// # Errors
    ///
    /// [`What::NoQuestion`]; [`What::StatesAndQuestions`], since no kind of record has both: [`Problem::solve`] asks one after the other.
    pub fn record(&self) -> Result<Vec<u8>, Fault> {
        if self.questions.len() <= 1 {
            return self.alone(0);
        }
        if self.states.contains(&false) {
            return Err(Fault { row: None, lead: None, what: What::StatesAndQuestions });
        }
        Ok(self.bytes(3, &[self.questions.len() as u16], &self.questions))
    }

    /// The record with one of the questions alone, by its place: of kind 1, or of kind 5 where a rule is suspended. [`crate::check`] takes
    /// it with the answer in that place.
    ///
    /// # Errors
    ///
    /// [`What::NoQuestion`], [`What::NoSuchRow`].
    ///
    /// ```
    /// # fn main() -> Result<(), Box<dyn std::error::Error>> {
    /// let mut day = span::Problem::new(1)?;
    /// day.rule(&[(0, 30)], &[(1, 0)])?;
    /// day.question(&[(1, 0)], &[(0, 0)])?; // from the anchor to the moment
    /// day.question(&[(0, 0)], &[(1, 0)])?; // and back
    /// let mut answers = [0; 2 * span::ANSWER_SIZE];
    /// let solved = span::solve_all(&day.record()?, &mut answers)?;
    /// assert_eq!(solved.to_string(), "least 30, bottomless");
    /// for (question, answer) in solved.answers.iter().enumerate() {
    ///     let record = &answers[answer.bytes.clone()];
    ///     assert_eq!(span::check(&day.alone(question)?, record)?.outcome, answer.outcome);
    ///     assert_eq!(span::read(record, day.n(), day.m())?.to_string(), answer.to_string());
    /// }
    /// # Ok(())
    /// # }
    /// ```
    pub fn alone(&self, question: usize) -> Result<Vec<u8>, Fault> {
        let what = if question == 0 { What::NoQuestion } else { What::NoSuchRow };
        let row = self.questions.get(question).ok_or(Row::Question(question.saturating_add(1)).fault(what))?;
        let states: Vec<u16> = self.states.iter().map(|&state| state as u16).collect();
        let lifted = states.contains(&0);
        Ok(self.bytes(if lifted { 5 } else { 1 }, if lifted { &states } else { &[] }, std::slice::from_ref(row)))
    }

    /// A record: length, kind, n, m, what stands between m and the rows, the rules, the questions.
    fn bytes(&self, kind: u16, between: &[u16], questions: &[Leads]) -> Vec<u8> {
        let mut record = vec![0; 4];
        let header = [kind, self.n() as u16, self.m() as u16];
        record.extend(header.iter().chain(between).flat_map(|field| field.to_le_bytes()));
        record.extend(self.rules.iter().chain(questions).flatten().flat_map(|lead| lead.to_le_bytes()));
        let length = record.len() as u32 - 4;
        record[..4].copy_from_slice(&length.to_le_bytes());
        record
    }

    fn leads(&self, row: Row, left: &[(usize, i32)], right: &[(usize, i32)]) -> Result<Leads, Fault> {
        let mut leads = vec![BLANK; 2 * self.moments];
        let (start, end) = leads.split_at_mut(self.moments);
        for (side, pairs, list) in [(Side::Left, left, start), (Side::Right, right, end)] {
            for &(moment, lead) in pairs {
                let fault = |what| Fault { row: Some(row), lead: Some((side, moment)), what };
                let place = list.get_mut(moment).ok_or(fault(What::NoSuchMoment))?;
                if *place != BLANK {
                    return Err(fault(What::Twice));
                }
                if lead != BLANK && !(-MOST_LEAD..=MOST_LEAD).contains(&lead) {
                    return Err(fault(What::Beyond(lead)));
                }
                *place = lead;
            }
        }
        Ok(leads)
    }
}

impl Row {
    fn fault(self, what: What) -> Fault {
        Fault { row: Some(self), lead: None, what }
    }
}

impl fmt::Display for Row {
    fn fmt(&self, out: &mut fmt::Formatter) -> fmt::Result {
        match self {
            Row::Rule(number) => write!(out, "rule {number}"),
            Row::Question(number) => write!(out, "question {number}"),
        }
    }
}

impl fmt::Display for What {
    fn fmt(&self, out: &mut fmt::Formatter) -> fmt::Result {
        match self {
            What::TooManyMoments => write!(out, "there are at most {MOST_N} moments beside the anchor"),
            What::TooManyRules => write!(out, "there are at most {MOST_M} rules"),
            What::TooManyQuestions => write!(out, "there are at most {} questions", crate::QUESTIONS),
            What::NoQuestion => write!(out, "there is no question"),
            What::NoSuchRow => write!(out, "there is no such row"),
            What::NoSuchMoment => write!(out, "there is no such moment"),
            What::Twice => write!(out, "the list has this moment twice"),
            What::Beyond(lead) => write!(out, "the lead {lead} is beyond ±{MOST_LEAD}"),
            What::Silent => write!(out, "the left list is all blank"),
            What::StatesAndQuestions => write!(out, "a record with suspended rules has one question"),
        }
    }
}

impl fmt::Display for Side {
    fn fmt(&self, out: &mut fmt::Formatter) -> fmt::Result {
        out.write_str(if *self == Side::Left { "left list" } else { "right list" })
    }
}

impl fmt::Display for Fault {
    fn fmt(&self, out: &mut fmt::Formatter) -> fmt::Result {
        match (self.row, self.lead) {
            (Some(row), Some((side, moment))) => write!(out, "{row}, {side}, moment {moment}: {}", self.what),
            (Some(row), None) => write!(out, "{row}: {}", self.what),
            (None, _) => self.what.fmt(out),
        }
    }
}

impl std::error::Error for Fault {}
