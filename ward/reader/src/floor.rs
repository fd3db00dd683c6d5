//! The line `nothing before anchor`: a rule for each moment that nothing else holds at the anchor or later.
//!
//! How early a moment can be under the rules of the text is asked of the archive; a moment that can be at the anchor at the
//! earliest, or later, is held. The rules that are added stand behind those that are written, in the order of the moments.

use crate::cursor::{Cursor, Unknown};
use crate::fault::{with, Fault};
use crate::parse::{place, Draft};
use crate::remark::Place;
use crate::sheet::{Origin, Row};
use crate::sides;
use crate::tokens::Token;

/// The line, as it was read.
#[derive(Clone, Debug)]
pub struct Floor {
    pub place: Place,
    /// The line, and what is wrong where a rule of the text speaks against it.
    pub line: String,
    pub from: usize,
    pub to: usize,
    /// The moments that may be before the anchor.
    pub but: Vec<usize>,
}

/// Whether this is such a line.
pub fn starts(cursor: &Cursor) -> bool {
    cursor.sees("nothing before") || cursor.sees("nothing after") || cursor.sees("everything after")
}

impl Draft<'_> {
    /// `nothing before anchor`, `nothing before anchor but a, b`.
    pub(crate) fn floor_line(&mut self, number: usize, cursor: &mut Cursor) -> Result<(), Fault> {
        let (from, text) = (cursor.place(), cursor.rest());
        let (line, to) = (cursor.line, cursor.end());
        let whole = |rest: &str| with(line, from, to, &format!("nothing before anchor{rest}"));
        if !cursor.takes("nothing before anchor") {
            let fault = Fault::new(from, to, "there is 'nothing before anchor' alone");
            let time =
                cursor.peek(2).and_then(|token| self.clock.hours(token.text)).filter(|_| cursor.sees("nothing before"));
            let anchors = time.is_some() && self.sheet.anchor.map(|anchor| anchor.minute) == time;
            let near = cursor.sees("nothing before the anchor") || cursor.sees("everything after anchor") || anchors;
            return Err(match near {
                true => fault.fix("", whole("")),
                false => self.each_moment(cursor, fault.hint("other limits are rules, one a moment"), from),
            });
        }
        let excepted = cursor.takes("but");
        if cursor.peek(0).is_some() && !excepted {
            let fault = cursor.fault("'but' is expected");
            let except = cursor.sees("except") || cursor.sees("without");
            let rest = cursor.peek(1).map_or("", |token| &line[token.from..to]);
            return Err(if except { fault.fix("", whole(&format!(" but {rest}"))) } else { fault });
        }
        let but = if excepted { self.excepted(cursor)? } else { Vec::new() };
        if let Some(first) = &self.floor {
            let fault = Fault::new(from, to, format!("one such line is enough, and line {} is one", first.place.line));
            let names: Vec<String> =
                first.but.iter().map(|&moment| crate::shown::name(&self.sheet.moments[moment].name)).collect();
            let held: Vec<String> =
                names.iter().map(|name| with(line, from, to, &format!("anchor <= {name}"))).collect();
            let fault = fault.fix("the other line alone", with(line, from, to, &format!("# {text}")));
            return Err(if held.is_empty() { fault } else { fault.fixes("no exception of the other line", held) });
        }
        let place = place(number, line, from, from + text.len());
        self.sheet.floor = Some(place);
        self.floor = Some(Floor { place, line: line.into(), from, to, but });
        Ok(())
    }

    /// `nothing before 7:30`, `nothing after 18:00`: a rule for each moment.
    fn each_moment(&self, cursor: &Cursor, fault: Fault, from: usize) -> Fault {
        let words = if cursor.sees("nothing after") { "by" } else { "not before" };
        let Some(point) = cursor.peek(2) else { return fault };
        let tokens = cursor.left();
        let but = |token: &Token| ["but", "except", "without"].contains(&token.text.to_lowercase().as_str());
        let end = tokens.iter().position(but).unwrap_or(tokens.len());
        let point = &cursor.line[point.from..tokens[end - 1].to];
        let excepted = |name: &str| tokens[end..].iter().any(|token| token.text == name);
        let moments = self.sheet.moments[1..].iter().filter(|moment| !excepted(&moment.name));
        let names = moments.map(|moment| crate::shown::name(&moment.name));
        let lines: Vec<String> = names
            .filter(|name| name != point)
            .map(|name| with(cursor.line, from, cursor.end(), &format!("{name} {words} {point}")))
            .collect();
        match cursor.sees("everything after") || lines.is_empty() {
            true => fault,
            false => fault.fixes("each moment", lines),
        }
    }

    /// The names behind `but`, with commas between them.
    fn excepted(&self, cursor: &mut Cursor) -> Result<Vec<usize>, Fault> {
        let mut but = Vec::new();
        loop {
            sides::in_quotes(cursor, &self.known())?;
            let Some(token) = cursor.take() else { return Err(cursor.fault("a moment's name is expected")) };
            let fault = |message: &str| Err(Fault::new(token.from, token.to, message));
            match self.known().moment(token.text) {
                Some(0) => return fault("the anchor is never before itself"),
                Some(moment) => but.push(moment),
                None if token.text.to_lowercase() == "not" => {
                    let line = cursor.line;
                    let but = line[..token.from].trim_end();
                    let said = Fault::new(token.from, token.to, "'but not' can be taken both ways")
                        .hint("a name behind 'but' may be before the anchor");
                    let Some(alone) = but.len().checked_sub(3).and_then(|place| but.get(..place)) else {
                        return Err(said);
                    };
                    let alone = alone.trim_end();
                    return Err(said
                        .fix("it may be before the anchor", format!("{but} {}", line[token.to..].trim_start()))
                        .fix("it may not", format!("{alone}{}", &line[cursor.end()..])));
                }
                None => cursor.unknown.push(Unknown { name: token.text.into(), from: token.from, to: token.to }),
            }
            if cursor.peek(0).is_none() {
                return Ok(but);
            }
            if !cursor.takes(",") {
                let fault = cursor.fault("a comma is expected");
                let and = cursor.peek(0).filter(|_| cursor.sees("and") || cursor.sees("or"));
                let comma = |and: Token| {
                    format!("{}, {}", cursor.line[..and.from].trim_end(), cursor.line[and.to..].trim_start())
                };
                return Err(and.map_or(fault.clone(), |and| fault.fix("", comma(and))));
            }
        }
    }

    /// Adds the rules, where the text has the line and no mistake.
    pub(crate) fn add_floor(&mut self) {
        let (Some(floor), Some(earliest)) = (self.floor.clone(), self.clock.earliest) else { return };
        let count = self.sheet.moments.len();
        let rules: Vec<&Row> = self.sheet.in_force().collect();
        if let Some(moment) = (1..count).find(|moment| !floor.but.contains(moment) && allowed(&rules, *moment)) {
            let fault = self.against(&floor, moment);
            self.wrong(floor.place.line, &floor.line, fault);
            return;
        }
        let held: Vec<bool> =
            earliest(&rules, count).iter().map(|minute| minute.is_some_and(|minute| minute >= 0)).collect();
        let only = |moment: usize| (0..count).map(|place| (place == moment).then_some(0)).collect::<Vec<_>>();
        for moment in (1..count).filter(|moment| !floor.but.contains(moment)) {
            if !held.get(moment - 1).copied().unwrap_or(false) {
                let text = format!("anchor <= {}", crate::shown::name(&self.sheet.moments[moment].name));
                let (left, right) = (only(0), only(moment));
                self.sheet.rules.push(Row {
                    place: floor.place,
                    text,
                    left,
                    right,
                    in_force: true,
                    origin: Origin::Floor,
                });
            }
        }
    }

    /// A rule that lets a moment be before the anchor, beside the line that forbids it.
    fn against(&self, floor: &Floor, moment: usize) -> Fault {
        let name = crate::shown::name(&self.sheet.moments[moment].name);
        let mut but: Vec<String> =
            floor.but.iter().map(|&moment| crate::shown::name(&self.sheet.moments[moment].name)).collect();
        but.push(name.clone());
        let whole = |text: String| with(&floor.line, floor.from, floor.to, &text);
        let line = whole(format!("nothing before anchor but {}", but.join(", ")));
        let message = format!("a rule lets {name} be before the anchor, and this line does not");
        Fault::new(floor.from, floor.to, message)
            .fix(format!("{name} before the anchor too"), line.clone())
            .fixes(format!("{name} not before the anchor"), vec![whole(format!("anchor <= {name}")), line])
    }
}

/// Whether a rule names a time before the anchor as a moment's earliest.
fn allowed(rules: &[&Row], moment: usize) -> bool {
    let only = |leads: &[crate::sheet::Lead], place: usize| {
        let single = leads.iter().flatten().count() == 1;
        leads.get(place).copied().flatten().filter(|_| single)
    };
    let direct = |rule: &&&Row| Some(only(&rule.left, 0)? - only(&rule.right, moment)?);
    let bounds: Vec<i32> = rules.iter().filter_map(|rule| direct(&rule)).collect();
    bounds.iter().any(|bound| *bound < 0) && !bounds.iter().any(|bound| *bound >= 0)
}
