//! Reading a text.
//!
//! ```text
//! # a comment starts at the line's start or between spaces; on the first line it is the title
//! moments: ready, "bed 4", ambulance
//! anchor: 2026-11-16 8:00
//! open: Monday to Friday 7:00-18:00
//! admits: ready
//! ready not before 8:40
//! anchor + 30 <= later of ready, (ambulance + 1:15)
//! "bed 4" 35 to 40 min after ready
//! suspended: ambulance by Mon 8:50
//! nothing before anchor but ambulance
//! span: from "bed 4" to later of ready, ambulance
//! expect: least -47
//! ```
//!
//! Each line is read for itself, and what is wrong with one keeps no other from being read.

use std::collections::BTreeMap;

use crate::alike;
use crate::clock::Clock;
use crate::cursor::Cursor;
use crate::fault::{with, Fault};
use crate::floor::{self, Floor};
use crate::hash;
use crate::instant::Known;
use crate::limits;
use crate::lines::{headed, without_colon, Key};
use crate::named::{self, Named};
use crate::naming;
use crate::nearby::{self, Meant};
use crate::open::Group;
use crate::outcome::Expected;
use crate::remark::{Place, Remark, Weight};
use crate::repair::{self, FIXED};
use crate::sheet::{Form, Origin, Sheet, EXACT};
use crate::shown;
use crate::sides;
use crate::source;
use crate::tokens::{self, Dashes, Token};
use crate::vain;

/// A text that was read.
pub struct Read {
    /// What it says, where it has no mistake.
    pub sheet: Option<Sheet>,
    /// Mistakes and warnings, in the order of their places.
    pub remarks: Vec<Remark>,
    /// The lines, for showing a remark.
    pub lines: Vec<String>,
}

/// Reads a whole text. No bytes are an idle day.
pub fn read(bytes: &[u8], clock: &Clock) -> Read {
    let source = source::lines(bytes);
    let mut draft = Draft::new(clock);
    draft.remarks = source.remarks;
    if bytes.is_empty() {
        draft.sheet = Sheet::idle();
    } else if source.readable {
        draft.sheet.title = source.lines.first().and_then(|line| title(line));
        draft.every(&source.lines);
        if !draft.mistaken() {
            draft.add_floor();
        }
        draft.whole(&source.lines);
    }
    let good = !draft.mistaken();
    if !good {
        draft.taken(&source.lines);
    }
    let Draft { mut sheet, mut remarks, expected, .. } = draft;
    for (span, _, outcome) in expected {
        if let Some(question) = sheet.questions.get_mut(span) {
            question.expected = Some(outcome);
        }
    }
    if good {
        remarks.extend(vain::warnings(&sheet));
    }
    remarks.sort_by_key(|remark| remark.place);
    Read { sheet: good.then_some(sheet), remarks, lines: source.lines }
}

/// The title that a text's first line has, if it is a comment.
pub fn title(line: &str) -> Option<String> {
    let title = line.trim().strip_prefix('#')?.trim();
    (!title.is_empty()).then(|| title.into())
}

/// What was read so far.
pub(crate) struct Draft<'c> {
    pub(crate) clock: &'c Clock,
    pub(crate) sheet: Sheet,
    pub(crate) remarks: Vec<Remark>,
    /// Lines `span:` so far, those with a mistake too.
    pub(crate) spans: usize,
    /// Names that no line declares, with their places.
    pub(crate) unknown: BTreeMap<String, Vec<Place>>,
    /// Whether a line of moments could not be read, so that nobody knows which names it has.
    pub(crate) unread: bool,
    /// Lines `expect:`: of which span, on which line, and what.
    pub(crate) expected: Vec<(usize, usize, Expected)>,
    /// The moments by what they look like.
    pub(crate) looks: BTreeMap<String, usize>,
    /// How many moments there are beyond those that are kept.
    pub(crate) beyond: usize,
    /// Whether the anchor's line is a mistake.
    pub(crate) doubtful: bool,
    /// Whether a line of opening hours is a mistake.
    pub(crate) unopened: bool,
    /// The lines of opening hours: each with where its hours start, and with its groups.
    pub(crate) opened: Vec<(String, usize, Vec<Group>)>,
    /// The line `nothing before anchor`.
    pub(crate) floor: Option<Floor>,
    /// Where the line `record:` stands.
    pub(crate) form: Option<Place>,
    /// How deep this is a trial of lines that may be written in another's stead; the text itself is none.
    pub(crate) depth: usize,
    /// How many mistaken lines may still be looked at for other words.
    pub(crate) looks_left: usize,
    /// The days that are named by the line in whose place this is a trial.
    pub(crate) days: Vec<Named>,
    /// The days that the line names which is read, and those of the line in whose place it is.
    pub(crate) named: Vec<Named>,
}

/// A part of a line as a place. Places of a line count bytes there, and characters here.
pub(crate) fn place(number: usize, line: &str, from: usize, to: usize) -> Place {
    let column = line[..from].chars().count() + 1;
    Place { line: number, column, width: line[from..to.max(from)].chars().count().max(1) }
}

impl<'c> Draft<'c> {
    pub(crate) fn new(clock: &'c Clock) -> Draft<'c> {
        Draft {
            clock,
            sheet: Sheet::new(),
            remarks: Vec::new(),
            spans: 0,
            unknown: BTreeMap::new(),
            unread: false,
            expected: Vec::new(),
            looks: BTreeMap::new(),
            beyond: 0,
            doubtful: false,
            unopened: false,
            opened: Vec::new(),
            floor: None,
            form: None,
            depth: 0,
            looks_left: repair::FIXED,
            days: Vec::new(),
            named: Vec::new(),
        }
    }

    /// What lines are read with.
    pub(crate) fn known(&self) -> Known<'_> {
        let Sheet { moments, anchor, .. } = &self.sheet;
        Known { moments, anchor: *anchor, doubtful: self.doubtful, clock: self.clock, named: &self.named }
    }

    fn mistaken(&self) -> bool {
        self.remarks.iter().any(|remark| remark.weight == Weight::Mistake)
    }

    pub(crate) fn wrong(&mut self, number: usize, line: &str, fault: Fault) {
        let Fault { from, to, message, hint, fixes } = fault;
        let place = place(number, line, from, to);
        self.remarks.push(Remark { weight: Weight::Mistake, place, message, hint, fixes });
    }

    /// Reads all lines: those first that others are read with.
    pub(crate) fn every(&mut self, lines: &[String]) {
        self.all(lines, |key| key == Key::Moments);
        self.all(lines, |key| [Key::Anchor, Key::Record].contains(&key));
        self.all(lines, |key| ![Key::Moments, Key::Anchor, Key::Record].contains(&key));
    }

    /// Reads the lines of some kinds.
    pub(crate) fn all(&mut self, lines: &[String], wanted: fn(Key) -> bool) {
        for (number, line) in (1..).zip(lines) {
            // A fault of the line as a whole is told once, with the lines that are rules.
            let end = match tokens::comment(line).and_then(|end| hash::doubtful(self, line, end).map_or(Ok(end), Err)) {
                Ok(end) => end,
                Err(fault) if wanted(Key::Rule) => {
                    self.unread |= headed(line, fault.from).key == Some(Key::Moments);
                    let fault = hash::told(self, line, fault);
                    self.wrong(number, line, fault);
                    continue;
                }
                Err(_) => continue,
            };
            if !line[..end].trim().is_empty() {
                self.line(number, line, end, wanted);
            }
        }
    }

    fn line(&mut self, number: usize, line: &str, end: usize, wanted: fn(Key) -> bool) {
        let mut headed = headed(line, end);
        let dashes = match headed.key {
            Some(Key::Open | Key::Expect) => Dashes::Between,
            _ => Dashes::Within,
        };
        let mut tokens = tokens::tokens(line, headed.from.min(end), end, dashes);
        if let (Some(Key::Rule), Ok(found)) = (headed.key, &tokens) {
            if let Some((key, fault)) = without_colon(line, found) {
                headed.key = Some(key);
                headed.fault = Some(fault);
                tokens = tokens.map(|tokens| tokens[1..].to_vec());
            }
        }
        // A line that starts with no known word is told with the rules.
        if !wanted(headed.key.unwrap_or(Key::Rule)) {
            return;
        }
        self.named = self.days.clone();
        named::join(&mut self.named, named::of(line));
        let before = self.remarks.len();
        if let Some(fault) = headed.fault {
            self.wrong(number, line, fault);
        }
        if let Some(key) = headed.key {
            self.headed(key, (number, line, end), tokens, before);
        }
        self.other_words(number, line, end, before);
    }

    /// Reads what stands behind a line's word.
    fn headed(&mut self, key: Key, at: (usize, &str, usize), tokens: Result<Vec<Token>, Fault>, before: usize) {
        let (number, line, end) = at;
        self.unread |= key == Key::Moments && tokens.is_err();
        let done = tokens.and_then(|tokens| {
            let mut cursor = Cursor::new(line, tokens, end);
            let done = self.take(key, number, &mut cursor);
            for unknown in cursor.unknown {
                let place = place(number, line, unknown.from, unknown.to);
                self.unknown.entry(unknown.name).or_default().push(place);
            }
            done
        });
        self.doubtful |= key == Key::Anchor && done.is_err();
        self.unopened |= key == Key::Open && (done.is_err() || self.remarks.len() > before);
        if let Err(fault) = done {
            self.wrong(number, line, fault);
        }
        self.spans += (key == Key::Span) as usize;
    }

    fn take(&mut self, key: Key, number: usize, cursor: &mut Cursor) -> Result<(), Fault> {
        let no_sign = !cursor.left().iter().any(|token| token.kind == tokens::Kind::Relation);
        match key {
            Key::Moments => self.names(number, cursor),
            Key::Anchor => self.anchor(cursor),
            Key::Open => self.open(number, cursor),
            Key::Admits => self.admits(cursor),
            Key::Rule if no_sign && floor::starts(cursor) => self.floor_line(number, cursor),
            Key::Suspended if no_sign && floor::starts(cursor) => {
                let from = cursor.place();
                let (line, rest) = (cursor.line, cursor.rest());
                Err(Fault::new(from, from + rest.len(), "this line is no rule, and is not suspended")
                    .fix("a comment", format!("# {rest}{}", &line[cursor.end()..])))
            }
            Key::Rule => self.rule(number, cursor, true),
            Key::Suspended => self.rule(number, cursor, false),
            Key::Span => self.ask(number, cursor),
            Key::Expect => self.expect(number, cursor),
            Key::Plan => self.plan(cursor),
            Key::Record => self.record(number, cursor),
        }
    }

    /// Which layout the record has: `with a count of its spans`, `with the state of each rule`.
    fn record(&mut self, number: usize, cursor: &mut Cursor) -> Result<(), Fault> {
        let (from, text, line) = (cursor.place(), cursor.rest(), cursor.line);
        let said = text.split_whitespace().map(str::to_lowercase).collect::<Vec<_>>().join(" ");
        if said == EXACT {
            self.sheet.exact = true;
            return Ok(());
        }
        let form = [Form::Counted, Form::States].into_iter().find(|form| form.words() == Some(&said));
        let Some(form) = form else {
            let fault = Fault::new(from, from + text.len(), "this line says how the record is written, and not so");
            let say = |form: Form| with(line, from, from + text.len(), form.words().unwrap_or(""));
            return Err(fault
                .hint("it is for texts that 'ward text' writes; leave it out elsewhere")
                .fix("as for several spans", say(Form::Counted))
                .fix("as for suspended rules", say(Form::States)));
        };
        self.sheet.form = form;
        self.form = Some(place(number, line, from, from + text.len()));
        Ok(())
    }

    /// What is wrong with the text as a whole.
    fn whole(&mut self, lines: &[String]) {
        if !self.unread {
            self.unknown_names(lines);
        }
        let Sheet { moments, rules, questions, .. } = &self.sheet;
        let moment = moments.get(limits::MOMENTS + 1).map(|moment| moment.place);
        let rule = rules.get(limits::RULES).map(|rule| rule.place);
        let question = questions.get(limits::QUESTIONS).map(|question| question.row.place);
        let counts = [moments.len() - 1 + self.beyond, rules.len(), questions.len()];
        let several = rules.iter().any(|rule| rule.origin != Origin::Line);
        self.too_many(moment, counts[0], limits::MOMENTS, "moments beside the anchor", "");
        let hint = "a line with two limits is two rules, and 'nothing before anchor' adds one a moment";
        self.too_many(rule, counts[1], limits::RULES, "rules", if several { hint } else { "" });
        self.too_many(question, counts[2], limits::QUESTIONS, "spans", "");
        let column = lines.last().map_or(0, |line| line.chars().count()) + 1;
        let end = Place { line: lines.len(), column, width: 1 };
        if self.spans == 0 {
            let hint = "say what is asked for, as in 'span: from anchor to ready'";
            self.missing(end, "there is no line 'span: from .. to ..'", hint);
        }
        let day = self.sheet.anchor.and_then(|anchor| anchor.day).or(self.doubtful.then_some(0));
        if let (Some(place), None) = (self.sheet.week.first().map(|window| window.place), day) {
            self.missing(place, "opening hours need the day of the anchor", "as in 'anchor: Monday 8:00'");
        }
        if let Some(place) = self.form.filter(|_| self.sheet.form == Form::Counted && self.sheet.has_suspended()) {
            let hint = "leave this line out: a rule of the text is suspended";
            self.missing(place, "no record has a count of its spans and suspended rules", hint);
        }
        if let (Some(&moment), true) = (self.sheet.admits.first(), self.sheet.week.is_empty() && !self.unopened) {
            let place = self.sheet.moments[moment].place;
            self.missing(
                place,
                "there are no opening hours for 'admits:'",
                "as in 'open: Monday to Friday 7:00-18:00'",
            );
        }
    }

    /// Tells the place of the first that is too many.
    fn too_many(&mut self, place: Option<Place>, count: usize, most: usize, what: &str, hint: &str) {
        if let Some(place) = place {
            let message = format!("there are {count} {what}, and {most} is the most; here is number {}", most + 1);
            let hint = (!hint.is_empty()).then(|| hint.into());
            self.remarks.push(Remark { weight: Weight::Mistake, place, message, hint, fixes: Vec::new() });
        }
    }

    fn missing(&mut self, place: Place, message: &str, hint: &str) {
        let (message, hint) = (message.into(), Some(hint.into()));
        self.remarks.push(Remark { weight: Weight::Mistake, place, message, hint, fixes: Vec::new() });
    }

    /// A name that is not declared is told once, with the other lines that have it.
    pub(crate) fn unknown_names(&mut self, lines: &[String]) {
        let mut unknown: Vec<(String, Vec<Place>)> = std::mem::take(&mut self.unknown).into_iter().collect();
        unknown.sort_by_key(|(_, places)| places[0]);
        for (number, (name, places)) in unknown.into_iter().enumerate() {
            let mut others: Vec<usize> =
                places[1..].iter().map(|place| place.line).filter(|line| *line != places[0].line).collect();
            others.dedup();
            let list = others.iter().map(usize::to_string).collect::<Vec<_>>().join(", ");
            let also = match others.len() {
                0 => String::new(),
                1 => format!("; also on line {list}"),
                _ => format!("; also on lines {list}"),
            };
            let look = alike::look(&name);
            let alike = self.looks.get(&look).copied().or((look == "anchor").then_some(0));
            let alike = alike.map(|place| self.sheet.moments[place].name.clone());
            let meant = match &alike {
                Some(known) => Meant { same: true, names: vec![known.clone()] },
                None if number < FIXED => nearby::meant(&name, sides::names(&self.sheet.moments)),
                None => Meant::default(),
            };
            let message = match &alike {
                Some(known) => {
                    format!(
                        "'{name}' looks like '{known}' and is another name: {}{also}",
                        alike::difference(&name, known)
                    )
                }
                None => format!("no moment is called '{name}'{also}"),
            };
            let line = lines.get(places[0].line - 1).map_or("", String::as_str);
            let hint = match meant.names.is_empty() {
                false => None,
                true => Some(naming::unknown_hint(&name, self.sheet.moments.len() == 1).into()),
            };
            let fixes = if number < FIXED { self.names_for(&name, &meant, line, places[0]) } else { Vec::new() };
            self.remarks.push(Remark { weight: Weight::Mistake, place: places[0], message, hint, fixes });
        }
    }
}

/// A line with another name at a place.
pub(crate) fn renamed(line: &str, place: Place, name: &str) -> String {
    renamed_to(line, place, &shown::name(name))
}

/// A line with another text at a place.
pub(crate) fn renamed_to(line: &str, place: Place, text: &str) -> String {
    let byte = |column: usize| line.char_indices().nth(column).map_or(line.len(), |(byte, _)| byte);
    let (from, to) = (byte(place.column - 1), byte(place.column - 1 + place.width));
    with(line, from, to, text)
}

/// The tokens of a part of a line, as a rule has them.
pub(crate) fn part(line: &str, from: usize, to: usize) -> Option<Vec<Token<'_>>> {
    tokens::tokens(line, from, to, Dashes::Within).ok()
}
