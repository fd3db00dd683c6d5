//! A second reader of texts, of the forms with a sign and none of the spoken ones. It looks for no mistakes: it takes what it
//! understands, and says what record that is. It shares no code with the reader. Its first form was written from the guide alone; the
//! lengths, brackets, signs and dashes were added by whoever built the reader, so that for those it is a second program, not a second mind.

const BLANK: i32 = i32::MIN;
const DASHES: &str = "-–—−‐‑";

/// The words and signs of a line without its comment; names in quotes keep a first quote.
fn parts(line: &str) -> Option<Vec<String>> {
    let characters: Vec<char> = line.chars().collect();
    let space = |place: Option<usize>| place.and_then(|place| characters.get(place)).is_none_or(|c| c.is_whitespace());
    let mut parts = vec![String::new()];
    let mut quoted: Option<&str> = None;
    for (place, &c) in characters.iter().enumerate() {
        let last = parts.last_mut()?;
        let alone = space(place.checked_sub(1)) && space(Some(place + 1));
        match c {
            c if quoted.is_some_and(|quotes| quotes.contains(c)) => {
                quoted = None;
                parts.push(String::new());
            }
            c if quoted.is_some() => last.push(c),
            '"' | '“' | '”' | '„' | '«' | '»' => {
                quoted = ["\"", "“”„", "«»"].into_iter().find(|quotes| quotes.contains(c));
                parts.push("\"".into());
            }
            '#' if alone || characters[..place].iter().all(|c| c.is_whitespace()) => break,
            '#' => return None,
            c if c.is_whitespace() => parts.push(String::new()),
            c if DASHES.contains(c) && alone => parts.extend(["-".into(), String::new()]),
            '+' | ',' | '(' | ')' => parts.extend([c.into(), String::new()]),
            c if "<>=≤≥".contains(c) && last.chars().all(|c| "<>=≤≥".contains(c)) => last.push(c),
            c if "<>=≤≥".contains(c) => parts.push(c.into()),
            c => {
                if last.starts_with(['<', '>', '=', '≤', '≥']) {
                    parts.push(String::new());
                }
                parts.last_mut()?.push(c);
            }
        }
    }
    parts.retain(|part| !part.is_empty());
    quoted.is_none().then_some(parts)
}

/// A number and its unit, also in one word: the number, and the minutes of the unit.
fn unit(word: &str) -> Option<i32> {
    Some(match word.to_lowercase().as_str() {
        "min" | "mins" | "minute" | "minutes" => 1,
        "h" | "hr" | "hrs" | "hour" | "hours" => 60,
        "d" | "day" | "days" => 1_440,
        _ => return None,
    })
}

/// A length of time.
fn minutes(words: &[String]) -> Option<i32> {
    // Numbers and letters apart.
    let mut parts: Vec<String> = Vec::new();
    for word in words {
        parts.push(String::new());
        for c in word.chars() {
            let last = parts.last_mut()?;
            let digits = last.chars().all(|c| c.is_ascii_digit() || c == ':');
            if !last.is_empty() && digits != (c.is_ascii_digit() || c == ':') {
                parts.push(String::new());
            }
            parts.last_mut()?.push(c);
        }
    }
    let (mut sum, mut place) = (0_i32, 0);
    while place < parts.len() {
        if let Some((hours, minutes)) = parts[place].split_once(':') {
            sum += 60 * hours.parse::<i32>().ok()? + minutes.parse::<i32>().ok()?;
            place += if parts.get(place + 1).and_then(|word| unit(word)) == Some(60) { 2 } else { 1 };
            continue;
        }
        let number: i32 = parts[place].parse().ok()?;
        let unit = parts.get(place + 1).and_then(|word| unit(word));
        sum = sum.checked_add(number.checked_mul(unit.unwrap_or(1))?)?;
        place += 1 + unit.is_some() as usize;
    }
    (!parts.is_empty()).then_some(sum)
}

/// The moments of a side with their minutes, and whether it is one moment alone.
fn terms(names: &[String], parts: &[String]) -> Option<Vec<(usize, i32)>> {
    let small: Vec<String> = parts.iter().map(|part| part.to_lowercase()).collect();
    let plus =
        |terms: Vec<(usize, i32)>, more: i32| terms.into_iter().map(|(name, lead)| (name, lead + more)).collect();
    if small.len() > 2 && ["later", "latest"].contains(&small[0].as_str()) && small[1] == "of" {
        let rest = &parts[2..];
        // Brackets round all of them, with minutes behind.
        if let Some(close) = around(rest).filter(|close| split(&rest[1..*close]).len() > 1) {
            let inner = listed(names, &rest[1..close])?;
            return match &rest[close + 1..] {
                [] => Some(inner),
                [sign, rest @ ..] if sign == "+" => Some(plus(inner, minutes(rest)?)),
                [sign, rest @ ..] if sign == "-" => Some(plus(inner, -minutes(rest)?)),
                _ => None,
            };
        }
        return listed(names, rest);
    }
    let sign = outer(parts, |part| part == "+" || part == "-");
    if let Some(sign) = sign {
        let (first, second) = (&parts[..sign], &parts[sign + 1..]);
        if let Some(more) = minutes(first).filter(|_| parts[sign] == "+") {
            return Some(plus(terms(names, second)?, more));
        }
        let more = minutes(second)?;
        return Some(plus(terms(names, first)?, if parts[sign] == "-" { -more } else { more }));
    }
    if around(parts).is_some_and(|close| close + 1 == parts.len()) {
        return terms(names, &parts[1..parts.len() - 1]);
    }
    let [name] = parts else { return None };
    let plain = name.trim_start_matches('"');
    let found = names.iter().position(|known| known == plain);
    let anchor = (name.to_lowercase() == "anchor").then_some(0);
    Some(vec![(found.or(anchor)?, 0)])
}

fn listed(names: &[String], parts: &[String]) -> Option<Vec<(usize, i32)>> {
    let lists: Option<Vec<_>> = split(parts).into_iter().map(|part| terms(names, part)).collect();
    Some(lists?.concat())
}

/// Where the bracket that starts a list of parts ends.
fn around(parts: &[String]) -> Option<usize> {
    let mut depth = 0;
    (parts.first()? == "(").then_some(())?;
    for (place, part) in parts.iter().enumerate() {
        depth += (part == "(") as i32 - (part == ")") as i32;
        if depth == 0 {
            return Some(place);
        }
    }
    None
}

/// The last place outside brackets at which something stands.
fn outer(parts: &[String], such: impl Fn(&str) -> bool) -> Option<usize> {
    let mut depth = 0;
    let mut found = None;
    for (place, part) in parts.iter().enumerate() {
        depth += (part == "(") as i32 - (part == ")") as i32;
        if depth == 0 && such(part) {
            found = Some(place);
        }
    }
    found
}

/// The parts between commas outside brackets.
fn split(parts: &[String]) -> Vec<&[String]> {
    let mut lists = Vec::new();
    let mut rest = parts;
    let mut depth = 0;
    let mut place = 0;
    while place < rest.len() {
        depth += (rest[place] == "(") as i32 - (rest[place] == ")") as i32;
        if depth == 0 && rest[place] == "," {
            lists.push(&rest[..place]);
            rest = &rest[place + 1..];
            place = 0;
        } else {
            place += 1;
        }
    }
    lists.push(rest);
    lists
}

/// The leads of a side.
fn side(names: &[String], parts: &[String]) -> Option<Vec<i32>> {
    let mut leads = vec![BLANK; names.len()];
    if parts.len() == 1 && parts[0].to_lowercase() == "nothing" {
        return Some(leads);
    }
    for (moment, lead) in terms(names, parts)? {
        leads[moment] = leads[moment].max(lead);
    }
    Some(leads)
}

/// The record of a text; where rules are suspended, the records of its spans one after another.
pub fn record(text: &str) -> Option<Vec<u8>> {
    if text.is_empty() {
        return Some(Vec::new());
    }
    let text = text.strip_prefix('\u{FEFF}').unwrap_or(text);
    let lines: Option<Vec<Vec<String>>> = text.split('\n').map(parts).collect();
    let lines: Vec<Vec<String>> = lines?.into_iter().filter(|line| !line.is_empty()).map(headed).collect();
    let mut names = vec!["anchor".to_string()];
    for line in lines.iter().filter(|line| line[0].to_lowercase() == "moments:") {
        names.extend(line[1..].iter().filter(|part| *part != ",").map(|name| name.trim_start_matches('"').to_string()));
    }
    let (mut rules, mut states, mut spans) = (Vec::new(), Vec::new(), Vec::new());
    let (mut counted, mut stated) = (false, false);
    for line in &lines {
        match line[0].to_lowercase().as_str() {
            "moments:" | "anchor:" | "expect:" | "open:" | "admits:" => {}
            "record:" => {
                counted |= line.iter().any(|part| part == "count");
                stated |= line.iter().any(|part| part == "state");
            }
            "span:" => {
                let to = line.iter().position(|part| part.to_lowercase() == "to")?;
                (line.get(1)?.to_lowercase() == "from").then_some(())?;
                spans.push([side(&names, &line[to + 1..])?, side(&names, line.get(2..to)?)?].concat());
            }
            key => {
                let lifted = (key == "suspended:") as usize;
                let middle = line.iter().position(|part| part.starts_with(['<', '>', '=', '≤', '≥']))?;
                let (left, right) = (line.get(lifted..middle)?, &line[middle + 1..]);
                let (first, second) = (side(&names, left)?, side(&names, right)?);
                let bare = |parts: &[String]| terms(&names, parts).is_some_and(|terms| matches!(terms[..], [(_, 0)]));
                match line[middle].as_str() {
                    "<=" | "≤" | "=<" => rules.push([first, second].concat()),
                    ">=" | "≥" => rules.push([second, first].concat()),
                    "=" | "==" => {
                        let (subject, base) =
                            if bare(left) || !bare(right) { (first, second) } else { (second, first) };
                        rules.push([base.clone(), subject.clone()].concat());
                        rules.push([subject, base].concat());
                    }
                    _ => return None,
                }
                states.resize(rules.len(), 1 - lifted);
            }
        }
    }
    let (n, m) = (names.len() - 1, rules.len());
    if states.contains(&0) || stated {
        let head = [&[5, n, m], &states[..]].concat();
        return Some(spans.iter().flat_map(|span| put_together(&head, rules.iter().chain([span]))).collect());
    }
    let head = if spans.len() == 1 && !counted { vec![1, n, m] } else { vec![3, n, m, spans.len()] };
    Some(put_together(&head, rules.iter().chain(&spans)))
}

/// Length, numbers of two bytes, and rows.
fn put_together<'a>(head: &[usize], rows: impl Iterator<Item = &'a Vec<i32>>) -> Vec<u8> {
    let mut body: Vec<u8> = head.iter().flat_map(|&number| (number as u16).to_le_bytes()).collect();
    body.extend(rows.flatten().flat_map(|lead| lead.to_le_bytes()));
    [(body.len() as u32).to_le_bytes().to_vec(), body].concat()
}

/// A line whose first word, where a colon ends it, is one part of its own.
fn headed(mut line: Vec<String>) -> Vec<String> {
    if line.get(1).is_some_and(|second| second.starts_with(':')) {
        let second = line.remove(1);
        line[0] += &second;
    }
    let known = ["moments:", "span:", "expect:", "anchor:", "open:", "admits:", "suspended:", "record:"]
        .into_iter()
        .find(|key| line[0].to_lowercase().starts_with(key));
    if let Some(key) = known.filter(|key| line[0].len() > key.len()) {
        let rest = line[0].split_off(key.len());
        line.insert(1, rest);
    }
    line
}
