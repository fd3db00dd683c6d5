//! Document 01, and 2.1, 2.2, 2.4, 2.5, 2.6, 2.9 and 2.10 of document 02, in Rust, as plainly as it can be said: problems, plans, spans, records, refusals,
//! trials.

/// A lead, stamp or whole minute; `None` is blank.
pub type Minute = Option<i64>;

#[derive(Clone, Debug, PartialEq, Eq)]
pub struct Row {
    pub left: Vec<Minute>,
    pub right: Vec<Minute>,
}

impl Row {
    /// As a rule it says nothing: its left list is all blank (document 02, 2.6).
    pub fn says_nothing(&self) -> bool {
        self.left.iter().all(|lead| lead.is_none())
    }
}

/// Rules 1 to m, then the question. Each list has n + 1 leads.
#[derive(Clone, Debug, PartialEq, Eq)]
pub struct Problem {
    pub rules: Vec<Row>,
    pub question: Row,
}

/// Rules 1 to m, then several questions (document 02, 2.1).
#[derive(Clone, Debug, PartialEq, Eq)]
pub struct Questions {
    pub rules: Vec<Row>,
    pub questions: Vec<Row>,
}

/// A problem whose rules have states: 1 in force, 0 suspended (document 02, 2.10).
#[derive(Clone, Debug, PartialEq, Eq)]
pub struct Stated {
    pub problem: Problem,
    pub states: Vec<u64>,
}

/// The span of a plan; the order is document 01's.
#[derive(Clone, Copy, Debug, PartialEq, Eq, PartialOrd, Ord)]
pub enum Span {
    MinusInfinity,
    Whole(i64),
    PlusInfinity,
}

#[derive(Clone, Copy, Debug, PartialEq, Eq)]
pub enum Outcome {
    Least(i64),
    Bottomless,
    None,
}

#[derive(Clone, Debug, PartialEq, Eq)]
pub struct Answer {
    pub class: u64,
    pub span: Minute,
    /// Where reach begins (document 02, 2.4).
    pub start: u64,
    pub stamps: Vec<Minute>,
    pub picks: Vec<u64>,
}

pub const BLANK: i64 = -2_147_483_648;
/// The limits of document 02, 2.2.
pub const LONGEST_LEAD: i64 = 20_160;
pub const LONGEST_SPAN: i64 = 1_290_240;
/// The limits of document 02, 2.4: a stamp, the buffer for an answer, and the kind of an answer.
pub const LONGEST_STAMP: i64 = 6_000_000;
pub const BUFFER: usize = 208;
pub const ANSWER_KIND: u8 = 4;

/// The largest of (lead + moment); blank is below every minute, and so is `None` in Rust's order.
pub fn largest(leads: &[Minute], plan: &[Minute]) -> Minute {
    let sums = leads.iter().zip(plan).map(|(lead, moment)| Some((*lead)? + (*moment)?));
    sums.max().flatten()
}

impl Problem {
    pub fn n(&self) -> usize {
        self.question.left.len() - 1
    }

    pub fn m(&self) -> usize {
        self.rules.len()
    }

    /// Row i of 0 to m: the rules, then the question.
    pub fn row(&self, number: usize) -> &Row {
        self.rules.get(number).unwrap_or(&self.question)
    }

    pub fn keeps_the_rules(&self, plan: &[Minute]) -> bool {
        self.rules.iter().all(|rule| largest(&rule.left, plan) <= largest(&rule.right, plan))
    }

    pub fn span(&self, plan: &[Minute]) -> Span {
        match (largest(&self.question.left, plan), largest(&self.question.right, plan)) {
            (None, _) => Span::MinusInfinity,
            (Some(_), None) => Span::PlusInfinity,
            (Some(first), Some(second)) => Span::Whole(first - second),
        }
    }

    /// A plan counts only if its second list is not blank (document 02, 2.4).
    pub fn counts(&self, plan: &[Minute]) -> bool {
        largest(&self.question.right, plan).is_some()
    }

    /// The moments with a non-blank lead in the second list.
    pub fn second_list(&self) -> Vec<usize> {
        (0..=self.n()).filter(|&moment| self.question.right[moment].is_some()).collect()
    }

    /// The record.
    pub fn bytes(&self) -> Vec<u8> {
        let mut bytes = vec![0, 0, 0, 0, 1, 0, self.n() as u8, 0, self.m() as u8, 0];
        put_rows(&mut bytes, self.rules.iter().chain([&self.question]));
        mend_length(&mut bytes);
        bytes
    }
}

impl Questions {
    /// The kind 1 problem with one question alone.
    pub fn alone(&self, question: usize) -> Problem {
        Problem { rules: self.rules.clone(), question: self.questions[question].clone() }
    }

    /// The record of kind 3, which has one question or more.
    pub fn bytes(&self) -> Vec<u8> {
        let (n, m) = (self.questions[0].left.len() - 1, self.rules.len());
        let mut bytes = vec![0, 0, 0, 0, 3, 0, n as u8, 0, m as u8, 0, self.questions.len() as u8, 0];
        put_rows(&mut bytes, self.rules.iter().chain(&self.questions));
        mend_length(&mut bytes);
        bytes
    }
}

impl Stated {
    /// The problem that holds only the rules in force.
    pub fn only_in_force(&self) -> Problem {
        let rules = self.problem.rules.iter().zip(&self.states);
        let rules = rules.filter(|(_, state)| **state == 1).map(|(rule, _)| rule.clone()).collect();
        Problem { rules, question: self.problem.question.clone() }
    }

    /// The problem with its rules under their own numbers. A suspended rule is kept by every plan, gives no arcs, needs no pick and may
    /// not be picked: so does a row without leads.
    pub fn lifted(&self) -> Problem {
        let mut problem = self.problem.clone();
        for (rule, _) in problem.rules.iter_mut().zip(&self.states).filter(|(_, state)| **state == 0) {
            rule.left.fill(None);
            rule.right.fill(None);
        }
        problem
    }

    /// The record of kind 5.
    pub fn bytes(&self) -> Vec<u8> {
        let mut bytes = vec![0, 0, 0, 0, 5, 0, self.problem.n() as u8, 0, self.problem.m() as u8, 0];
        for state in &self.states {
            bytes.extend((*state as u16).to_le_bytes());
        }
        put_rows(&mut bytes, self.problem.rules.iter().chain([&self.problem.question]));
        mend_length(&mut bytes);
        bytes
    }
}

fn put_rows<'a>(bytes: &mut Vec<u8>, rows: impl Iterator<Item = &'a Row>) {
    for lead in rows.flat_map(|row| row.left.iter().chain(&row.right)) {
        bytes.extend((lead.unwrap_or(BLANK) as i32).to_le_bytes());
    }
}

impl Answer {
    pub fn bytes(&self, n: usize) -> Vec<u8> {
        let mut bytes = vec![0, 0, 0, 0, ANSWER_KIND, 0, n as u8, 0, self.class as u8, 0];
        bytes.extend((self.span.unwrap_or(BLANK) as i32).to_le_bytes());
        bytes.extend((self.start as u16).to_le_bytes());
        for stamp in &self.stamps {
            bytes.extend((stamp.unwrap_or(BLANK) as i32).to_le_bytes());
        }
        for pick in &self.picks {
            bytes.extend((*pick as u16).to_le_bytes());
        }
        mend_length(&mut bytes);
        bytes
    }

    pub fn outcome(&self) -> Outcome {
        match (self.class, self.span) {
            (1, Some(span)) => Outcome::Least(span),
            (2, _) => Outcome::Bottomless,
            _ => Outcome::None,
        }
    }
}

/// Makes the length field the size − 4.
pub fn mend_length(bytes: &mut [u8]) {
    let length = bytes.len() as u32 - 4;
    bytes[..4].copy_from_slice(&length.to_le_bytes());
}

/// A number of up to four bytes, unsigned.
pub fn number(bytes: &[u8]) -> u64 {
    bytes.iter().rev().fold(0, |sum, byte| 256 * sum + *byte as u64)
}

/// A lead, stamp or span.
fn minute(bytes: &[u8]) -> Minute {
    let unsigned = number(bytes) as i64;
    let signed = if unsigned >= 1 << 31 { unsigned - (1 << 32) } else { unsigned };
    (signed != BLANK).then_some(signed)
}

fn within(minute: Minute, limit: i64) -> bool {
    minute.is_none_or(|value| -limit <= value && value <= limit)
}

/// Refusals 1 to 6, 17 and 20 of the checker, which takes kinds 1 and 5; else the problem, suspended rules without leads.
pub fn read_problem(bytes: &[u8]) -> Result<Problem, u64> {
    speaking(read_rows(bytes, &[1, 5])?).map(|all| all.alone(0))
}

/// Refusals 1 to 6, 15, 17 and 20 of the engine, which takes kinds 1, 3 and 5; else the rules, suspended ones without leads, and the
/// questions.
pub fn read_questions(bytes: &[u8]) -> Result<Questions, u64> {
    speaking(read_rows(bytes, &[1, 3, 5])?)
}

/// Refusal 17: a rule has an all-blank left list, in force or suspended. Then suspended rules lose their leads.
fn speaking((all, states): (Questions, Vec<u64>)) -> Result<Questions, u64> {
    if all.rules.iter().any(Row::says_nothing) {
        return Err(17);
    }
    let problem = Stated { problem: all.alone(0), states }.lifted();
    Ok(Questions { rules: problem.rules, questions: all.questions })
}

/// The converter (document 02, 2.6): 1 to 6 and 15 as the engine gives them, then 7 where the buffer is shorter than the record to
/// be written; else the record without the rules that say nothing. No bytes are no idle day here: they get 1 (2.9).
pub fn converted(bytes: &[u8], buffer: usize) -> Result<Vec<u8>, u64> {
    if bytes.is_empty() {
        return Err(1);
    }
    let (mut all, _) = read_rows(bytes, &[1, 3])?;
    all.rules.retain(|rule| !rule.says_nothing());
    let record = if number(&bytes[4..6]) == 1 { all.alone(0).bytes() } else { all.bytes() };
    if buffer < record.len() {
        Err(7)
    } else {
        Ok(record)
    }
}

/// The rules and the questions as they stand, and the states of the rules, 1 where the kind has none.
fn read_rows(bytes: &[u8], kinds: &[u64]) -> Result<(Questions, Vec<u64>), u64> {
    // 2.9: no bytes at all mean the problem with n = m = 0 and both anchor leads 0.
    if bytes.is_empty() {
        let question = Row { left: vec![Some(0)], right: vec![Some(0)] };
        return Ok((Questions { rules: Vec::new(), questions: vec![question] }, Vec::new()));
    }
    if bytes.len() < 10 {
        return Err(1);
    }
    if number(&bytes[0..4]) != bytes.len() as u64 - 4 {
        return Err(2);
    }
    let kind = number(&bytes[4..6]);
    if !kinds.contains(&kind) {
        return Err(3);
    }
    let (n, m) = (number(&bytes[6..8]), number(&bytes[8..10]));
    if n > 31 || m > 63 {
        return Err(4);
    }
    if kind == 3 && bytes.len() < 12 {
        return Err(5);
    }
    // After m stands a count of questions, or two bytes a rule, or nothing.
    let (count, header) = match kind {
        3 => (number(&bytes[10..12]), 12),
        5 => (1, 10 + 2 * m),
        _ => (1, 10),
    };
    if count == 0 || count > 8 {
        return Err(15);
    }
    if bytes.len() as u64 != header + 8 * (n + 1) * (m + count) {
        return Err(5);
    }
    let states: Vec<u64> =
        if kind == 5 { bytes[10..header as usize].chunks(2).map(number).collect() } else { vec![1; m as usize] };
    if states.iter().any(|state| *state > 1) {
        return Err(20);
    }
    let leads: Vec<Minute> = bytes[header as usize..].chunks(4).map(minute).collect();
    if !leads.iter().all(|lead| within(*lead, LONGEST_LEAD)) {
        return Err(6);
    }
    let width = n as usize + 1;
    let mut rules: Vec<Row> =
        leads.chunks(2 * width).map(|row| Row { left: row[..width].to_vec(), right: row[width..].to_vec() }).collect();
    let questions = rules.split_off(m as usize);
    Ok((Questions { rules, questions }, states))
}

/// The number of stamps and of picks that a class has.
pub fn counts(class: u64, n: usize, m: usize) -> (usize, usize) {
    match class {
        1 => (n + 1, n + 1),
        2 => (0, m + 1),
        _ => (0, n + 1),
    }
}

/// The highest value of a pick.
pub fn highest_pick(class: u64, n: usize, m: usize) -> u64 {
    if class == 2 {
        n as u64 + 1
    } else {
        m as u64 + 1
    }
}

/// The lowest and the highest start of a class (document 02, 2.4).
pub fn starts(class: u64, n: usize) -> std::ops::RangeInclusive<u64> {
    if class == 2 {
        1..=n as u64 + 1
    } else {
        0..=1
    }
}

/// Refusal 10 of a class and a start, with the problem's n.
fn no_class_or_start(class: u64, start: u64, n: usize) -> bool {
    class == 0 || class > 3 || !starts(class, n).contains(&start)
}

/// Refusal 12 or 13 for fields whose counts are right.
fn fields_out_of_form(class: u64, span: Minute, stamps: &[Minute], picks: &[u64], highest: u64) -> Option<u64> {
    let span_good = if class == 1 { span.is_some() && within(span, LONGEST_SPAN) } else { span.is_none() };
    let anchor_good = stamps.first().is_none_or(|stamp| *stamp == Some(0));
    if !span_good || !anchor_good || !stamps.iter().all(|stamp| within(*stamp, LONGEST_STAMP)) {
        return Some(12);
    }
    picks.iter().any(|pick| *pick > highest).then_some(13)
}

/// Refusals 8 to 13; else the answer.
pub fn read_answer(bytes: &[u8], n: usize, m: usize) -> Result<Answer, u64> {
    if bytes.len() < 16 {
        return Err(8);
    }
    if number(&bytes[0..4]) != bytes.len() as u64 - 4 {
        return Err(9);
    }
    let class = number(&bytes[8..10]);
    let start = number(&bytes[14..16]);
    if number(&bytes[4..6]) != ANSWER_KIND as u64 || no_class_or_start(class, start, n) {
        return Err(10);
    }
    let (stamps, picks) = counts(class, n, m);
    if number(&bytes[6..8]) != n as u64 || bytes.len() != 16 + 4 * stamps + 2 * picks {
        return Err(11);
    }
    let (first, second) = bytes[16..].split_at(4 * stamps);
    let answer = Answer {
        class,
        span: minute(&bytes[10..14]),
        start,
        stamps: first.chunks(4).map(minute).collect(),
        picks: second.chunks(2).map(number).collect(),
    };
    let highest = highest_pick(class, n, m);
    match fields_out_of_form(class, answer.span, &answer.stamps, &answer.picks, highest) {
        Some(refusal) => Err(refusal),
        None => Ok(answer),
    }
}

/// The reader's refusals: 4 first.
pub fn reader(bytes: &[u8], n: u64, m: u64) -> Result<Answer, u64> {
    if n > 31 || m > 63 {
        return Err(4);
    }
    read_answer(bytes, n as usize, m as usize)
}

/// The writer: 4, then 7, then 10 to 13; else the record.
pub fn writer(answer: &Answer, n: u64, m: u64, buffer: usize) -> Result<Vec<u8>, u64> {
    if n > 31 || m > 63 {
        return Err(4);
    }
    if buffer < BUFFER {
        return Err(7);
    }
    let (n, m) = (n as usize, m as usize);
    if no_class_or_start(answer.class, answer.start, n) {
        return Err(10);
    }
    if (answer.stamps.len(), answer.picks.len()) != counts(answer.class, n, m) {
        return Err(11);
    }
    let highest = highest_pick(answer.class, n, m);
    match fields_out_of_form(answer.class, answer.span, &answer.stamps, &answer.picks, highest) {
        Some(refusal) => Err(refusal),
        None => Ok(answer.bytes(n)),
    }
}

/// The trials that the engine makes where exactly these spans are possible.
pub fn trials(possible: impl Fn(i64) -> bool) -> u64 {
    if !possible(1_290_240) {
        return 1;
    }
    if possible(-1_290_241) {
        return 2;
    }
    let (mut high, mut low, mut halvings) = (1_290_240, -1_290_241, 0);
    while high - low != 1 {
        let sum: i64 = high + low;
        let middle = sum.div_euclid(2) + sum.rem_euclid(2);
        halvings += 1;
        if possible(middle) {
            high = middle;
        } else {
            low = middle;
        }
    }
    2 + halvings
}

/// The trials for an outcome: a span is possible from the least on, always, or never.
pub fn trials_for(outcome: Outcome) -> u64 {
    match outcome {
        Outcome::Least(span) => trials(|t| t >= span),
        Outcome::Bottomless => trials(|_| true),
        Outcome::None => trials(|_| false),
    }
}

/// What the tool of document 02, 2.5, names: rules, ascending, and for class 1 the binding round.
#[derive(Clone, Debug, PartialEq, Eq)]
pub struct Reasons {
    pub rules: Vec<usize>,
    pub round: Option<Vec<usize>>,
}

/// The rules picked by reached moments, and the binding round, of an accepted answer of class 1 or 3.
pub fn reasons(problem: &Problem, answer: &Answer, reached: &[bool]) -> Reasons {
    let picked = |rule: usize| (0..=problem.n()).any(|moment| reached[moment] && answer.picks[moment] == rule as u64);
    let rules = (1..=problem.m()).filter(|&rule| picked(rule)).collect();
    let round = (answer.class == 1).then(|| binding_round(problem, answer));
    Reasons { rules, round }
}

/// From the start a moment yields to its pick and a rule yields to its first latest right moment, turn about, until a moment comes
/// again. The question row yields like a rule. The round starts at the moment that comes again.
fn binding_round(problem: &Problem, answer: &Answer) -> Vec<usize> {
    let mut turns: Vec<usize> = Vec::new();
    let mut moment = match answer.start {
        0 => 0,
        _ => {
            let planned = |moment: &usize| answer.stamps[*moment].is_some();
            problem.second_list().into_iter().find(planned).expect("a planned moment of the second list")
        }
    };
    loop {
        if let Some(again) = turns.iter().position(|&before| before == moment) {
            return turns[again..].to_vec();
        }
        turns.push(moment);
        let row = problem.row(answer.picks[moment] as usize - 1);
        let latest = largest(&row.right, &answer.stamps);
        let sum = |moment: usize| Some(row.right[moment]? + answer.stamps[moment]?);
        moment = (0..=problem.n()).find(|&moment| sum(moment) == latest).expect("a latest right moment");
    }
}

/// The lines of the tool: numbers follow single spaces; with no rule picked the line is `rules` alone; for class 3 only the first
/// line. Refusals print as in the verdict program.
pub fn reasons_lines(found: &Result<Reasons, u64>) -> String {
    let line = |word: &str, numbers: &[usize]| {
        let words: Vec<String> = std::iter::once(word.into()).chain(numbers.iter().map(usize::to_string)).collect();
        words.join(" ") + "\n"
    };
    match found {
        Ok(found) => {
            let round = found.round.as_ref().map_or_else(String::new, |round| line("round", round));
            line("rules", &found.rules) + &round
        }
        Err(14) => "not certified\n".into(),
        Err(refusal) => format!("refused {refusal}\n"),
    }
}
