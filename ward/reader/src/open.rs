//! The line of opening hours: `Monday to Friday 7:00-18:00, Saturday 9:00-12:00`, `daily 7:00-18:00`, `Monday, Friday 9:00-12:00`.

use crate::clock::{self, Clock, Window, DAY, DAYS};
use crate::cursor::Cursor;
use crate::fault::{with, Fault};
use crate::instant::{self, Known};
use crate::length;
use crate::limits;
use crate::parse::{place, Draft};
use crate::tokens::{self, Kind};

/// Some days of the week, the first and the last.
type Days = (usize, usize);

/// Hours of some days, and where they stand.
#[derive(Clone, Copy, Debug)]
struct Hours {
    opening: i32,
    closing: i32,
    /// Where the days start that stand before them, if they do.
    start: usize,
    from: usize,
    to: usize,
}

/// Days with their hours, on a line.
#[derive(Clone, Debug)]
pub(crate) struct Group {
    days: Vec<Days>,
    hours: Vec<Hours>,
    number: usize,
}

impl Group {
    /// The days, one by one.
    fn each(&self) -> impl Iterator<Item = usize> + '_ {
        each(&self.days)
    }

    /// Whether it has a day.
    fn has(&self, day: usize) -> bool {
        self.each().any(|own| own == day)
    }

    /// Where it starts and ends.
    fn place(&self) -> (usize, usize) {
        (self.hours.first().map_or(0, |hours| hours.start), self.hours.last().map_or(0, |hours| hours.to))
    }
}

impl Draft<'_> {
    /// Windows with commas between them. Hours without a day are those of the days before them.
    pub(crate) fn open(&mut self, number: usize, cursor: &mut Cursor) -> Result<(), Fault> {
        let from = cursor.place();
        let groups = self.groups(number, cursor)?;
        let line = &cursor.line[..cursor.end()];
        if self.clock.judges() {
            for (place, group) in groups.iter().enumerate() {
                self.judged(cursor.line, from, (&groups, place), group)?;
            }
            self.shared(cursor.line, from, &groups)?;
        }
        for (group, hours) in groups.iter().flat_map(|group| group.hours.iter().map(move |hours| (group, hours))) {
            let place = place(number, line, hours.start, hours.to);
            for day in group.each().map(|day| day as i32 * DAY) {
                let [opening, closing] = [hours.opening, hours.closing].map(|time| (day + time) as u32);
                if !self.sheet.week.iter().any(|window| (window.opening, window.closing) == (opening, closing)) {
                    self.sheet.week.push(Window { opening, closing, place });
                }
            }
            if self.sheet.week.len() > limits::WINDOWS {
                return Err(Fault::new(hours.start, hours.to, "there are more than 14 windows in a week")
                    .hint("write windows that meet as one, or leave some out"));
            }
        }
        self.opened.push((line.into(), from, groups));
        self.sheet.week.sort_by_key(|window| window.opening);
        Ok(())
    }

    /// The days of a line with their hours.
    fn groups(&self, number: usize, cursor: &mut Cursor) -> Result<Vec<Group>, Fault> {
        let mut groups: Vec<Group> = Vec::new();
        loop {
            let start = cursor.place();
            match (read_days(cursor)?, groups.last_mut()) {
                (Some(_), before) if cursor.peek(0).is_none() => {
                    return Err(no_hours(cursor, before.map_or(&[][..], |group| &group.hours)));
                }
                (Some(days), _) => groups.push(Group { days, hours: vec![self.hours(cursor, start)?], number }),
                (None, None) => return Err(no_day(cursor)),
                (None, Some(group)) => group.hours.push(self.hours(cursor, start)?),
            }
            if !cursor.takes(",") && !cursor.takes("and") {
                break;
            }
        }
        match cursor.peek(0) {
            None => Ok(groups),
            Some(token) => Err(cursor
                .fault("a comma is expected")
                .hint("as in 'open: Monday to Friday 7:00-18:00, Saturday 9:00-12:00'")
                .fix("", format!("{}, {}", cursor.line[..token.from].trim_end(), &cursor.line[token.from..]))),
        }
    }

    /// What can be asked about the hours of some days.
    fn judged(&self, line: &str, from: usize, at: (&[Group], usize), group: &Group) -> Result<(), Fault> {
        for (place, &hours) in group.hours.iter().enumerate() {
            if hours.closing <= hours.opening {
                // What is shown has all hours of the line: those that can be two are asked about first.
                let mut others =
                    at.0.iter().flat_map(|group| &group.hours).filter(|hours| hours.opening < hours.closing);
                let small = others.find_map(|&hours| self.small_hours(line, hours));
                return Err(small.unwrap_or_else(|| self.over_midnight(line, from, at, place)));
            }
            if let Some(fault) = self.out_of_order(line, from, at, place) {
                return Err(fault);
            }
            if let Some(fault) = self.small_hours(line, hours) {
                return Err(fault);
            }
        }
        Ok(())
    }

    /// `7:00-18:00`.
    fn hours(&self, cursor: &mut Cursor, start: usize) -> Result<Hours, Fault> {
        let from = cursor.place();
        let opening = self.time(cursor)?;
        if !cursor.takes("-") {
            cursor.expect("to").map_err(|fault| fault.hint("hours are written 7:00-18:00"))?;
        }
        let to = cursor.peek(0).map_or(from, |token| token.to);
        Ok(Hours { opening, closing: self.time(cursor)?, start, from, to })
    }

    /// A time of day.
    fn time(&self, cursor: &mut Cursor) -> Result<i32, Fault> {
        let Some(token) = cursor.peek(0).filter(|token| token.kind == Kind::Word) else {
            return Err(cursor.fault("a time of day is expected").hint("hours are written 7:00-18:00"));
        };
        let minute = if length::is_hours(token.text) { self.clock.hours(token.text) } else { None };
        if let Some(minute) = minute.filter(|minute| (0..=DAY).contains(minute)) {
            cursor.take();
            let half = ["am", "pm", "a.m.", "p.m.", "uhr", "h"].contains(&cursor.plain(0).to_lowercase().as_str());
            return match instant::half(cursor, token).filter(|_| half) {
                Some(fault) => Err(fault),
                None => Ok(minute),
            };
        }
        let none = Known { moments: &[], anchor: None, doubtful: false, clock: self.clock, named: &[] };
        let fault = Fault::new(token.from, token.to, format!("'{}' is no time of day", token.text));
        let hour = token.text.parse::<i32>().ok().filter(|hour| (0..=24).contains(hour));
        Err(match (hour, instant::meant(cursor, &none)) {
            _ if length::like_hours(token.text) && token.text.len() == 4 => fault.fix("", all_hours(cursor)),
            (_, Some(fault)) => fault,
            (Some(_), _) => fault.fix("", all_hours(cursor)),
            _ => fault.hint("hours are written 7:00-18:00"),
        })
    }

    /// Hours that end before they start: over midnight, or in the afternoon.
    fn over_midnight(&self, line: &str, from: usize, (groups, at): (&[Group], usize), place: usize) -> Fault {
        let Hours { opening, closing, start, from: own, to } = groups[at].hours[place];
        let time = |minute: i32| (self.clock.write)(minute);
        let message = match opening == closing {
            true => format!("the ward opens and closes at {}", time(opening)),
            false => format!("the ward closes at {} before it opens at {}", time(closing), time(opening)),
        };
        let say = |closing: i32| {
            let mut groups = groups.to_vec();
            groups[at].hours[place].closing = closing;
            self.line_of(line, from, &groups, false)
        };
        let windows: usize = spread(groups, false).iter().map(Vec::len).sum();
        let fault = Fault::new(start, to, message).hint(match windows > limits::WINDOWS {
            true => "a window ends by 24:00; with the rest as one of the next day there are more than 14 in a week",
            false => "a window ends by 24:00; what is behind is one of the next day",
        });
        if closing == 0 {
            return fault.fix("until midnight", say(DAY));
        }
        let fault = match opening == closing && groups[at].each().count() == 7 {
            true => fault.fix("round the clock", with(line, own, to, "0:00-24:00")),
            false => fault.fix("over midnight", say(closing)),
        };
        match closing < DAY / 2 && closing + DAY / 2 > opening {
            true => fault.fix(
                "until the afternoon or evening",
                with(line, own, to, &format!("{}-{}", time(opening), time(closing + DAY / 2))),
            ),
            false => fault,
        }
    }

    /// Hours that start before those before them ended, on the same days: in the afternoon, over midnight, or earlier on these days.
    fn out_of_order(&self, line: &str, from: usize, (groups, at): (&[Group], usize), place: usize) -> Option<Fault> {
        let group = &groups[at];
        let (before, last) = (group.hours[place.checked_sub(1)?], group.hours[place]);
        (last.opening < before.closing).then_some(())?;
        let text = |hours: Hours| &line[hours.from..hours.to];
        if last.closing > before.opening {
            return Some(self.overlapping(line, before, last));
        }
        let message = format!("'{}' stands behind '{}', and is earlier", text(last), text(before));
        let fault = Fault::new(last.from, last.to, message);
        let [opening, closing] = [last.opening, last.closing].map(|minute| minute + DAY / 2);
        let later = format!("{}-{}", (self.clock.write)(opening), (self.clock.write)(closing));
        let fault = match opening >= before.closing && closing <= DAY && !text(last).starts_with('0') {
            true => fault.fix("in the afternoon or evening", with(line, last.from, last.to, &later)),
            false => fault,
        };
        let fault = match before.closing == DAY && last.opening == 0 {
            true => {
                let mut groups = groups.to_vec();
                let hours = groups[at].hours.remove(place);
                let next = Group { days: next_days(&group.days), hours: vec![hours], number: group.number };
                groups.insert(at + 1, next);
                fault.fix("over midnight", self.line_of(line, from, &groups, false))
            }
            false => fault,
        };
        let mut sorted = group.hours[..=place].to_vec();
        sorted.sort_by_key(|hours| hours.opening);
        let sorted: Vec<String> = sorted.iter().map(|&hours| self.by_night(line, hours)).collect();
        Some(fault.fix("earlier on these days", with(line, group.hours[0].from, last.to, &sorted.join(", "))))
    }

    /// Hours of the same days that have minutes in common: all of them, or the last alone.
    fn overlapping(&self, line: &str, before: Hours, last: Hours) -> Fault {
        let text = |hours: Hours| &line[hours.from..hours.to];
        let message = format!("'{}' and '{}' have hours in common", text(before), text(last));
        let (opening, closing) = (before.opening.min(last.opening), before.closing.max(last.closing));
        let all = format!("{}-{}", self.clock.time(opening), self.clock.time(closing));
        Fault::new(last.from, last.to, message)
            .fix("from the first to the last", with(line, before.from, last.to, &all))
            .fix("the last alone", with(line, before.from, last.to, text(last)))
    }

    /// Days that have hours in two places: those of the last alone, or all of them. A day that has the same hours again is none.
    fn shared(&mut self, line: &str, from: usize, groups: &[Group]) -> Result<(), Fault> {
        for place in 1..groups.len() {
            if let Some(day) = groups[..place].iter().find_map(|first| twice(first, &groups[place])) {
                let (start, to) = groups[place].place();
                let fault = Fault::new(start, to, format!("{} has hours already", DAYS[day]));
                return Err(self.which((fault, day), line, from, groups));
            }
        }
        for (other, start, before) in self.opened.clone() {
            let pairs = before.iter().flat_map(|first| groups.iter().map(move |group| (first, group)));
            let Some((day, number)) =
                pairs.filter_map(|(first, group)| Some((twice(first, group)?, group.number))).next()
            else {
                continue;
            };
            let (Some(first), Some(last)) = (before.first(), before.last()) else { continue };
            let message = format!("line {number} has other hours of {}", DAYS[day]);
            let fault = Fault::new(first.place().0, last.place().1, message);
            let own = |group: &Group| before.iter().any(|first| group.each().any(|day| first.has(day)));
            let days = |group: &Group| -> Vec<Days> {
                let both = |day: &usize| before.iter().any(|first| first.has(*day));
                group.each().filter(both).map(|day| (day, day)).collect()
            };
            let more =
                groups.iter().filter(|group| own(group)).map(|group| Group { days: days(group), ..group.clone() });
            let all: Vec<Group> = before.iter().cloned().chain(more).collect();
            let fault = self.which((fault, day), &other, start, &all);
            self.wrong(first.number, &other, fault);
            return Ok(());
        }
        Ok(())
    }

    /// A mistake with both readings of days that have hours in two places.
    fn which(&self, (fault, day): (Fault, usize), line: &str, from: usize, groups: &[Group]) -> Fault {
        fault
            .hint("the hours of a day stand in one place")
            .fix(format!("on {} these alone", DAYS[day]), self.line_of(line, from, groups, true))
            .fix(format!("on {} both", DAYS[day]), self.line_of(line, from, groups, false))
    }

    /// A line with the hours of all days, each day in one place.
    fn line_of(&self, line: &str, from: usize, groups: &[Group], alone: bool) -> String {
        let week = spread(groups, alone);
        let end = tokens::comment(line).unwrap_or(line.len());
        let end = line[..end].trim_end().len();
        let hours = |windows: &[(i32, i32)]| {
            let texts = windows.iter().map(|&(opening, closing)| written(self.clock, opening, closing));
            texts.collect::<Vec<_>>().join(", ")
        };
        let mut texts = Vec::new();
        let mut day = 0;
        while day < 7 {
            let last = (day..7).take_while(|&other| week[other] == week[day]).last().unwrap_or(day);
            if !week[day].is_empty() {
                let days = if (day, last) == (0, 6) { "daily".into() } else { named((day, last)) };
                texts.push(format!("{days} {}", hours(&week[day])));
            }
            day = last + 1;
        }
        with(line, from, end, &texts.join(", "))
    }

    /// Hours of the night, without a zero before them: they can be of the afternoon.
    fn is_small(&self, line: &str, hours: Hours) -> bool {
        let zero = line[hours.from..hours.to].starts_with('0');
        self.clock.judges() && !zero && is_small(hours.opening, hours.closing)
    }

    /// Hours as they are written, with a zero before each time where they would be asked about.
    fn by_night(&self, line: &str, hours: Hours) -> String {
        match self.is_small(line, hours) {
            true => written(self.clock, hours.opening, hours.closing),
            false => line[hours.from..hours.to].into(),
        }
    }

    /// `2:00-4:00`: at night, or in the afternoon.
    fn small_hours(&self, line: &str, hours: Hours) -> Option<Fault> {
        let Hours { opening, closing, from, to, .. } = Some(hours).filter(|&hours| self.is_small(line, hours))?;
        let [start, end] = [opening, closing].map(|minute| (self.clock.write)(minute + DAY / 2));
        let early = if closing > 6 * DAY / 24 { "in the morning" } else { "at night" };
        let late = if opening >= 5 * DAY / 24 { "in the evening" } else { "in the afternoon" };
        let fault = Fault::new(from, to, format!("'{}' can be {early}, or {late}", &line[from..to]));
        let fault = fault.fix(late, with(line, from, to, &format!("{start}-{end}")));
        Some(fault.fix(early, with(line, from, to, &self.by_night(line, hours))))
    }
}

/// The line with all its hours that are bare numbers as times of day.
fn all_hours(cursor: &Cursor) -> String {
    let (mut line, mut done) = (String::new(), 0);
    for token in cursor.left() {
        let hour = length::is_number(token.text) && token.text.parse().is_ok_and(|hour: i32| hour <= 24);
        let four = token.text.len() == 4 && length::like_hours(token.text);
        if (hour || four) && token.kind == Kind::Word {
            let text =
                if four { format!("{}:{}", &token.text[..2], &token.text[2..]) } else { format!("{}:00", token.text) };
            line += &format!("{}{text}", &cursor.line[done..token.from]);
            done = token.to;
        }
    }
    line + &cursor.line[done..]
}

/// Days with no hours behind them, at the end of the line.
fn no_hours(cursor: &Cursor, before: &[Hours]) -> Fault {
    let fault = cursor.fault("a time of day is expected").hint("hours are written 7:00-18:00");
    let (line, end) = (cursor.line, cursor.end());
    let say = |hours: &str| with(line, end, end, &format!(" {hours}"));
    let fault = match (before.first(), before.last()) {
        (Some(first), Some(last)) => fault.fix("the hours of the days before", say(&line[first.from..last.to])),
        _ => fault,
    };
    fault.fix("round the clock", say("0:00-24:00"))
}

/// Whether hours start from 1:00 to 6:59 and end by noon: all of them can be of the afternoon or evening.
fn is_small(opening: i32, closing: i32) -> bool {
    (DAY / 24..7 * DAY / 24).contains(&opening) && closing <= DAY / 2
}

/// Hours as they are written, with zeros before them where they would be asked about.
pub fn written(clock: &Clock, opening: i32, closing: i32) -> String {
    let zero = |minute: i32| if is_small(opening, closing) && minute < 10 * DAY / 24 { "0" } else { "" };
    format!("{}{}-{}{}", zero(opening), (clock.write)(opening), zero(closing), (clock.write)(closing))
}

/// A day of which the second of two groups has other hours than the first. The same days again, with no hours in common, have both.
fn twice(first: &Group, second: &Group) -> Option<usize> {
    let same = |a: &Hours, b: &Hours| (a.opening, a.closing) == (b.opening, b.closing);
    let again = second.hours.iter().all(|hours| first.hours.iter().any(|other| same(hours, other)));
    let (mut days, mut others): (Vec<usize>, Vec<usize>) = (first.each().collect(), second.each().collect());
    days.sort();
    others.sort();
    let apart = |a: &Hours, b: &Hours| a.closing <= b.opening || b.closing <= a.opening;
    let more = days == others && first.hours.iter().all(|a| second.hours.iter().all(|b| apart(a, b)));
    second.each().find(|day| first.has(*day)).filter(|_| !again && !more)
}

/// The windows of each day. Hours over midnight end on the next day; those of a later group are alone on its days, or come to the others.
fn spread(groups: &[Group], alone: bool) -> [Vec<(i32, i32)>; 7] {
    let mut own: [Vec<(i32, i32)>; 7] = Default::default();
    for (place, group) in groups.iter().enumerate() {
        for day in group.each() {
            // Hours that come to those of the same days are alone on none of them.
            let again = |first: &Group| first.has(day) && twice(first, group).is_some();
            if alone && groups[..place].iter().any(again) {
                own[day].clear();
            }
            own[day].extend(group.hours.iter().map(|hours| (hours.opening, hours.closing)));
        }
    }
    let mut week: [Vec<(i32, i32)>; 7] = Default::default();
    for (day, windows) in own.iter().enumerate() {
        for &(opening, closing) in windows {
            match closing <= opening {
                true => {
                    week[day].push((opening, DAY));
                    week[(day + 1) % 7].push((0, closing));
                }
                false => week[day].push((opening, closing)),
            }
        }
    }
    week.map(merged)
}

/// Windows in the order of time, those with minutes in common as one.
fn merged(mut windows: Vec<(i32, i32)>) -> Vec<(i32, i32)> {
    windows.sort();
    let mut found: Vec<(i32, i32)> = Vec::new();
    for (opening, closing) in windows {
        match found.last_mut() {
            Some(last) if opening < last.1 => last.1 = last.1.max(closing),
            _ => found.push((opening, closing)),
        }
    }
    found
}

/// The days behind some.
fn next_days(days: &[Days]) -> Vec<Days> {
    let next = |&(first, last): &Days| match (last + 1) % 7 == first {
        true => (first, last),
        false => ((first + 1) % 7, (last + 1) % 7),
    };
    days.iter().map(next).collect()
}

/// Some days as they are written before hours.
fn list(days: &[Days]) -> String {
    days.iter().map(|&days| named(days)).collect::<Vec<_>>().join(", ")
}

/// The days of some ranges, one after another.
fn each(days: &[Days]) -> impl Iterator<Item = usize> + '_ {
    days.iter().flat_map(|&(first, last)| (0..(last + 7 - first) % 7 + 1).map(move |step| (first + step) % 7))
}

/// A range of days as it is written.
fn named((first, last): Days) -> String {
    match first == last {
        true => DAYS[first].into(),
        false => format!("{} to {}", DAYS[first], DAYS[last]),
    }
}

/// A day of the week, if one stands so many tokens ahead.
fn day(cursor: &Cursor, ahead: usize) -> Option<usize> {
    cursor.peek(ahead).filter(|token| token.kind == Kind::Word).and_then(|token| clock::day(token.text))
}

/// Days before hours: `Monday`, `Monday to Friday`, `Monday, Friday`, `daily`; nothing where hours stand here.
fn read_days(cursor: &mut Cursor) -> Result<Option<Vec<Days>>, Fault> {
    if cursor.takes("daily") || cursor.takes("every day") {
        return Ok(Some(vec![(0, 6)]));
    }
    let mut days = Vec::new();
    while let Some(first) = day(cursor, 0) {
        let from = cursor.place();
        cursor.take();
        let range = ["-", "to"].contains(&cursor.plain(0).to_lowercase().as_str());
        if range {
            cursor.take();
        }
        let last = if range { day(cursor, 0).ok_or_else(|| no_day(cursor))? } else { first };
        if let Some(token) = cursor.peek(0).filter(|_| range && last == first) {
            return Err(same_day(cursor.line, from, token.to, first));
        }
        if range {
            cursor.take();
        }
        days.push((first, last));
        if day(cursor, 0).is_some() {
            return Err(no_comma(cursor, from, (first, last)));
        }
        let more = [",", "and", "&"].contains(&cursor.plain(0).to_lowercase().as_str());
        if more && day(cursor, 1).is_some() {
            cursor.take();
        } else if more {
            let token = cursor.peek(0).map_or((0, 0), |token| (token.from, token.to));
            let fault = cursor.fault("a time of day is expected").hint("hours are written 7:00-18:00");
            return Err(fault.fix("", with(cursor.line, token.0, token.1, "")));
        }
    }
    let hours = cursor.peek(0).is_some_and(|token| token.text.starts_with(|c: char| c.is_ascii_digit()));
    match days.is_empty() {
        false => Ok(Some(days)),
        true if hours => Ok(None),
        true => Err(no_day(cursor)),
    }
}

/// `Mon Fri`, `Mon Tue Wed`: from one to the other, or these alone.
fn no_comma(cursor: &Cursor, from: usize, days: Days) -> Fault {
    let line = cursor.line;
    let next: Vec<usize> = (0..).map_while(|ahead| day(cursor, ahead)).collect();
    let to = cursor.peek(next.len().saturating_sub(1)).map_or(from, |token| token.to);
    let all: Vec<Days> = [days].into_iter().chain(next.iter().map(|&day| (day, day))).collect();
    let last = next.last().copied().unwrap_or(days.1);
    let fault = Fault::new(from, to, format!("'{}' can be all days between, or these alone", &line[from..to]));
    let between = |fault: Fault| fault.fix("all days between", with(line, from, to, &named((days.0, last))));
    let these = |fault: Fault| fault.fix("these alone", with(line, from, to, &list(&all)));
    let whole = each(&[(days.0, last)]).eq(each(&all));
    match days.0 == days.1 && days.0 != last {
        true if whole => Fault { message: "commas stand between days".into(), ..fault }
            .fix("", with(line, from, to, &named((days.0, last)))),
        true => these(between(fault)),
        false => these(fault),
    }
}

/// `Mon to Mon`: that day alone, or the whole week.
fn same_day(line: &str, from: usize, to: usize, day: usize) -> Fault {
    Fault::new(from, to, format!("'{}' can be one day, or seven", &line[from..to]))
        .fix("that day alone", with(line, from, to, DAYS[day]))
        .fix("every day", with(line, from, to, "daily"))
}

/// `8:00-12:00 Mon to Fri`, `9:00-12:00 Monday, 13:00-15:00 Tuesday`: the days stand before their hours.
fn days_behind(cursor: &Cursor) -> Option<String> {
    let (tokens, line) = (cursor.left(), cursor.line);
    let such = |token: &tokens::Token| {
        let words = ["to", "-", "and", ","];
        clock::day(token.text).is_some() || words.contains(&token.text.to_lowercase().as_str())
    };
    let digits = |token: &tokens::Token| token.text.starts_with(|c: char| c.is_ascii_digit());
    let (mut at, mut texts) = (0, Vec::new());
    while at < tokens.len() {
        let hours = tokens.get(at..at + 3).filter(|hours| digits(&hours[0]) && digits(&hours[2]))?;
        let count = tokens[at + 3..].iter().take_while(|token| such(token)).count();
        let days = &tokens[at + 3..at + 3 + count];
        let last = days.iter().rposition(|token| clock::day(token.text).is_some())?;
        texts.push(format!("{} {}", &line[days[0].from..days[last].to], &line[hours[0].from..hours[2].to]));
        at += 3 + count;
    }
    Some(with(line, tokens.first()?.from, tokens.last()?.to, &texts.join(", ")))
}

/// What stands where a day belongs.
fn no_day(cursor: &Cursor) -> Fault {
    let fault = cursor.fault("a day is expected").hint("days are Monday to Sunday, or Mon to Sun, or daily");
    let Some(token) = cursor.peek(0).filter(|token| token.kind == Kind::Word) else { return fault };
    let say = |text: &str| with(cursor.line, token.from, token.to, text);
    let small = token.text.to_lowercase();
    if let Some(turned) = days_behind(cursor) {
        return fault.fix("", turned);
    }
    if token.text.starts_with(|c: char| c.is_ascii_digit()) {
        let days = |days: &str| with(cursor.line, token.from, token.from, days);
        return fault.fix("on every day", days("daily ")).fix("not on weekends", days("Monday to Friday "));
    }
    match small.as_str() {
        "weekdays" | "workdays" | "werktags" | "werktage" | "weekday" => fault
            .fix("without the Saturday", say("Monday to Friday"))
            .fix("with the Saturday", say("Monday to Saturday")),
        "weekend" | "weekends" | "wochenende" => fault.fix("", say("Saturday to Sunday")),
        "täglich" | "everyday" | "always" | "immer" => match cursor.peek(1) {
            Some(_) => fault.fix("", say("daily")),
            None => fault.fix("", say("daily 0:00-24:00")),
        },
        _ => fault,
    }
}
