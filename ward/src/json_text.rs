//! A text as JSON, for programs that write no lines: its fields become the lines of a text, which is then read like any other.
//! `docs/ward-text.schema.json` tells the fields.

use ward_reader::shown;

use crate::value::{self, Value};

/// Whether bytes are such a text: no line of a text starts with a brace.
pub fn is(bytes: &[u8]) -> bool {
    let bytes = bytes.strip_prefix(b"\xEF\xBB\xBF").unwrap_or(bytes);
    bytes.iter().find(|byte| !byte.is_ascii_whitespace()) == Some(&b'{')
}

/// The lines, or what is wrong.
pub fn lines(bytes: &[u8]) -> Result<String, String> {
    let text = std::str::from_utf8(bytes).map_err(|_| "the text is not UTF-8".to_string())?;
    let Value::Object(fields) = value::read(text.trim_start_matches('\u{feff}'))? else {
        return Err("an object is expected".into());
    };
    let mut parts: [Vec<String>; ORDER.len()] = Default::default();
    for (name, value) in &fields {
        let Some(place) = ORDER.iter().position(|known| known == name) else {
            return Err(format!("there is no field '{name}'; there are {}", ORDER.join(", ")));
        };
        parts[place] = field(name, value).map_err(|words| format!("'{name}': {words}"))?;
    }
    let lines = parts.concat();
    match lines.iter().find(|line| line.contains(|c: char| c.is_control())) {
        Some(line) => Err(format!("a text here is one line, and this is none: {}", line.escape_debug())),
        None => Ok(lines.iter().map(|line| format!("{line}\n")).collect()),
    }
}

/// The fields, in the order of their lines.
const ORDER: [&str; 9] =
    ["title", "moments", "anchor", "open", "admits", "plan", "rules", "nothing_before_anchor", "spans"];

fn field(name: &str, value: &Value) -> Result<Vec<String>, String> {
    Ok(match name {
        "title" => vec![format!("# {}", words(value)?)],
        "moments" => vec![format!("moments: {}", names(value)?)],
        "anchor" => vec![format!("anchor: {}", words(value)?)],
        "open" => {
            list(value)?.iter().map(|hours| Ok(format!("open: {}", words(hours)?))).collect::<Result<_, String>>()?
        }
        "admits" => vec![format!("admits: {}", names(value)?)],
        "plan" => list(value)?.iter().map(wish).collect::<Result<_, String>>()?,
        "rules" => list(value)?.iter().map(rule).collect::<Result<_, String>>()?,
        "nothing_before_anchor" => floor(value)?,
        _ => list(value)?.iter().map(span).collect::<Result<Vec<_>, String>>()?.concat(),
    })
}

fn words(value: &Value) -> Result<&str, String> {
    match value {
        Value::Text(words) => Ok(words),
        _ => Err("a text is expected".into()),
    }
}

fn list(value: &Value) -> Result<&[Value], String> {
    match value {
        Value::List(values) => Ok(values),
        _ => Err("a list is expected".into()),
    }
}

/// Names with commas between them, in quotes where they need them.
fn names(value: &Value) -> Result<String, String> {
    let names: Vec<String> =
        list(value)?.iter().map(|name| words(name).map(shown::name)).collect::<Result<_, String>>()?;
    Ok(names.join(", "))
}

/// `{"early": ["a"]}` or `{"late": ["a"]}`.
fn wish(value: &Value) -> Result<String, String> {
    match value {
        Value::Object(fields) => match &fields[..] {
            [(way, moments)] if way == "early" || way == "late" => Ok(format!("plan: {way} {}", names(moments)?)),
            _ => Err("'early' or 'late' is expected, with names".into()),
        },
        _ => Err("an object is expected".into()),
    }
}

/// A rule's line, or `{"rule": .., "suspended": true}`.
fn rule(value: &Value) -> Result<String, String> {
    let Value::Object(fields) = value else { return words(value).map(String::from) };
    let (mut line, mut suspended) = (None, false);
    for (name, value) in fields {
        match (name.as_str(), value) {
            ("rule", value) => line = Some(words(value)?),
            ("suspended", Value::True(value)) => suspended = *value,
            _ => return Err(format!("a rule has no field '{name}' like this")),
        }
    }
    let line = line.ok_or("the field 'rule' is missing")?;
    Ok(if suspended { format!("suspended: {line}") } else { line.into() })
}

/// `true`, or the names that may be before the anchor.
fn floor(value: &Value) -> Result<Vec<String>, String> {
    Ok(match value {
        Value::True(false) => Vec::new(),
        Value::True(true) => vec!["nothing before anchor".into()],
        _ => vec![format!("nothing before anchor but {}", names(value)?)],
    })
}

/// `{"from": .., "to": .., "expect": ..}`.
fn span(value: &Value) -> Result<Vec<String>, String> {
    let Value::Object(fields) = value else { return Err("an object is expected".into()) };
    let get = |name: &str| fields.iter().find(|(other, _)| other == name).map(|(_, value)| words(value)).transpose();
    if let Some((name, _)) = fields.iter().find(|(name, _)| !["from", "to", "expect"].contains(&name.as_str())) {
        return Err(format!("a span has no field '{name}'"));
    }
    let (Some(from), Some(to)) = (get("from")?, get("to")?) else { return Err("'from' and 'to' are expected".into()) };
    let mut lines = vec![format!("span: from {from} to {to}")];
    lines.extend(get("expect")?.map(|expected| format!("expect: {expected}")));
    Ok(lines)
}
