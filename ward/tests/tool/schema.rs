//! JSON: every output keeps `docs/ward.schema.json`, a text can be JSON too, and many texts give a line each.

use std::collections::BTreeSet;

use crate::scratch::Scratch;
use crate::value::{read, Value};
use crate::{repository, ward, E};

fn field<'v>(value: &'v Value, name: &str) -> Option<&'v Value> {
    match value {
        Value::Object(fields) => fields.iter().find(|(other, _)| other == name).map(|(_, value)| value),
        _ => None,
    }
}

fn words(value: &Value) -> Vec<String> {
    match value {
        Value::Text(word) => vec![word.clone()],
        Value::List(values) => values.iter().flat_map(words).collect(),
        _ => Vec::new(),
    }
}

/// The schema's word for what a value is.
fn kind(value: &Value) -> &'static str {
    match value {
        Value::Null => "null",
        Value::True(_) => "boolean",
        Value::Number(_) => "integer",
        Value::Text(_) => "string",
        Value::List(_) => "array",
        Value::Object(_) => "object",
    }
}

/// What is wrong with a value by a schema: types, fields, what a list holds, and which texts there are.
fn wrong(root: &Value, schema: &Value, value: &Value, at: &str) -> Option<String> {
    if let Some(Value::Text(path)) = field(schema, "$ref") {
        let name = path.strip_prefix("#/$defs/").expect("a definition");
        let schema = field(field(root, "$defs").expect("definitions"), name).expect("a definition");
        return wrong(root, schema, value, at);
    }
    if let Some(Value::List(any)) = field(schema, "anyOf") {
        let all: Option<Vec<String>> = any.iter().map(|schema| wrong(root, schema, value, at)).collect();
        return all.map(|all| all.concat());
    }
    let kind = kind(value);
    if !words(field(schema, "type").expect("a type")).iter().any(|word| word == kind) {
        return Some(format!("{at} is {kind}"));
    }
    if let Some(Value::List(all)) = field(schema, "enum") {
        return (!all.contains(value)).then(|| format!("{at} is {value:?}"));
    }
    match value {
        Value::List(values) => {
            let items = field(schema, "items").expect("items");
            values.iter().enumerate().find_map(|(place, value)| wrong(root, items, value, &format!("{at}[{place}]")))
        }
        Value::Object(fields) => {
            let known = field(schema, "properties").expect("fields");
            let required: BTreeSet<String> =
                field(schema, "required").map_or(BTreeSet::new(), |all| words(all).into_iter().collect());
            let there: BTreeSet<String> = fields.iter().map(|(name, _)| name.clone()).collect();
            if let Some(name) = required.difference(&there).next() {
                return Some(format!("{at} has no {name}"));
            }
            fields.iter().find_map(|(name, value)| match field(known, name) {
                Some(schema) => wrong(root, schema, value, &format!("{at}.{name}")),
                None => Some(format!("{at} has {name}")),
            })
        }
        _ => None,
    }
}

fn schema(name: &str) -> Value {
    let text = std::fs::read_to_string(repository().join("docs").join(name)).expect("the schema");
    read(&text).expect("JSON")
}

const DAY: &str = "# A day\nmoments: a, \"bed 4\", c, d\nanchor: 2026-11-20 16:00\nopen: Mon-Fri 7:00-18:00, Sat 9:00-12:00\nadmits: \"bed 4\"\nplan: early a\nplan: late c\nanchor + 30 <= a\na + 2 h <= \"bed 4\"\n\"bed 4\" <= c\nsuspended: c by 17:00\nnothing before anchor\nspan: from a to \"bed 4\"\nexpect: least 5\nspan: from c to a\nspan: from nothing to a\n";

#[test]
fn every_output_keeps_the_schema() {
    let schema = schema("ward.schema.json");
    let none = "moments: a, b\nanchor: Monday 8:00\nopen: daily 9:00-9:20\nadmits: a, b\nanchor <= a\nb = a + 30\nspan: from anchor to b\n";
    let quarrel = "moments: a\nanchor + 5 <= a\na <= anchor + 4\nspan: from anchor to a\n";
    let never = "moments: a, b, c\na + 10 <= b\nb <= a\nanchor + 10 <= c\nspan: from anchor to c\n";
    for text in [
        E,
        "",
        DAY,
        none,
        quarrel,
        never,
        "moments: a\na <= b\n",
        "moments: a\nanchor - 20155 <= a\nspan: from anchor to a\n",
    ] {
        for option in ["--quick", "--what-if"] {
            let told = ward(&["--json", option, "-"], text);
            let value = read(&told.out).unwrap_or_else(|words| panic!("{words}: {told:?}"));
            assert_eq!(wrong(&schema, &schema, &value, "it"), None, "{text}{}", told.out);
        }
    }
    let checked = ward(&["check", "--json", "-"], DAY);
    assert_eq!(wrong(&schema, &schema, &read(&checked.out).expect("JSON"), "it"), None, "{checked:?}");
}

#[test]
fn json_has_the_anchor_the_hours_and_what_was_expected() {
    let told = ward(&["--json", "-"], DAY);
    for part in [
        "\"date\": \"2026-11-20\"",
        "\"day\": \"Saturday\",\n          \"opens\": \"9:00\",\n          \"closes\": \"12:00\",\n          \"opening\": 7740",
        "\"admits\": [\n        \"bed 4\"\n      ]",
        "\"expected\": \"least 5\",\n          \"as_expected\": false",
        "\"expected\": null,\n          \"as_expected\": true",
        "\"way\": \"late\",\n              \"found\": \"no limit\",\n              \"minute\": null",
    ] {
        assert!(told.out.contains(part), "{part}\n{}", told.out);
    }
}

/// What the answer's own pick table names, and the same narrowed, for none too.
#[test]
fn json_has_both_lists_of_rules() {
    let list = |out: &str, name: &str| -> String {
        let part = out.split(&format!("\"{name}\": [")).nth(1).expect("a list").split(']').next().expect("its end");
        part.split_whitespace().collect()
    };
    for text in ["moments: a\nanchor + 5 <= a\na <= anchor + 4\nspan: from anchor to a\n", E] {
        let out = ward(&["--json", "-"], text).out;
        let (picked, needed) = (list(&out, "rules_behind"), list(&out, "rules_needed"));
        assert!(picked == needed && !picked.is_empty(), "{out}");
    }
}

#[test]
fn many_texts_give_a_line_each() {
    let scratch = Scratch::new("lines");
    let files = [scratch.file("a.txt", E), scratch.file("b.txt", "moments: a\na <= b\n"), scratch.file("c.txt", DAY)];
    let mut command = crate::tool();
    let told = crate::told(command.args(["-q", "--json=lines"]).args(&files));
    assert_eq!(told.status, Some(1), "{told:?}");
    let schema = schema("ward.schema.json");
    let lines: Vec<Value> = told.out.lines().map(|line| read(line).expect("JSON")).collect();
    assert_eq!(lines.len(), 3, "{told:?}");
    for line in lines {
        let Value::Object(mut fields) = line else { panic!("{told:?}") };
        assert_eq!(fields.remove(0).0, "ward");
        let file = Value::Object(fields);
        let of = field(field(&schema, "$defs").expect("definitions"), "file").expect("a file");
        assert_eq!(wrong(&schema, of, &file, "it"), None, "{told:?}");
    }
}

const AS_JSON: &str = r#"{
  "title": "A day",
  "moments": ["a", "bed 4", "c", "d"],
  "anchor": "2026-11-20 16:00",
  "open": ["Mon-Fri 7:00-18:00, Sat 9:00-12:00"],
  "admits": ["bed 4"],
  "plan": [{"early": ["a"]}, {"late": ["c"]}],
  "rules": ["anchor + 30 <= a", "a + 2 h <= \"bed 4\"", "\"bed 4\" <= c", {"rule": "c by 17:00", "suspended": true}],
  "nothing_before_anchor": true,
  "spans": [{"from": "a", "to": "\"bed 4\"", "expect": "least 5"}, {"from": "c", "to": "a"}, {"from": "nothing", "to": "a"}]
}"#;

#[test]
fn a_text_can_be_json() {
    let text_schema = schema("ward-text.schema.json");
    assert_eq!(wrong(&text_schema, &text_schema, &read(AS_JSON).expect("JSON"), "it"), None);
    let (one, other) = (ward(&["--json", "-"], AS_JSON), ward(&["--json", "-"], DAY));
    assert_eq!((one.status, one.out, one.err), (other.status, other.out, other.err));
    for (text, words) in [
        (
            "{\"moments\": [\"a\"], \"spam\": 1}",
            "as JSON this is no text: there is no field 'spam'; there are title, moments,",
        ),
        ("{\"moments\": \"a\"}", "'moments': a list is expected"),
        ("{\"rules\": [1]}", "'rules': a text is expected"),
        ("{\"rules\": [\"a <= b\\nspan: from a to b\"]}", "a text here is one line, and this is none"),
        ("{\"spans\": [{\"from\": \"a\"}]}", "'spans': 'from' and 'to' are expected"),
        ("{\"plan\": [{\"soon\": []}]}", "'plan': 'early' or 'late' is expected"),
        ("{", "line 1, column 2: a text in quotes is expected"),
    ] {
        let told = ward(&["-"], text);
        assert!(told.status == Some(1) && told.err.contains(words), "{text}: {told:?}");
    }
    let told = ward(&["check", "-"], AS_JSON.replace("anchor + 30 <= a", "anchor + 30 < a"));
    assert!(told.status == Some(1) && told.err.contains("anchor + 30 <= a"), "{told:?}");
}

#[test]
fn a_table_for_spreadsheets_has_its_mark() {
    let told = ward(
        &["--csv=excel", "-"],
        "moments: \"bed; 4\"\nanchor + 30 <= \"bed; 4\"\nspan: from anchor to \"bed; 4\"\n",
    );
    assert!(told.out.starts_with("\u{feff}file;span;from;to;verdict;moment;"), "{told:?}");
    assert!(told.out.lines().nth(2).expect("a line").ends_with(";\"bed; 4\";30;0:30;30;30;;;least;30"), "{told:?}");
    assert!(told.out.lines().all(|line| !line.is_empty()) && told.out.contains("\r\n"));
}

#[test]
fn a_status_of_its_own_is_given_where_it_is_asked_for() {
    let bottomless = "moments: a\nanchor <= a\nspan: from a to anchor\n";
    let none = "moments: a\nanchor <= nothing\nspan: from anchor to a\n";
    let shut =
        "moments: a\nanchor: Monday 6:00\nopen: daily 9:00-9:20\nanchor <= a\na by 7:00\nspan: from anchor to a\n";
    let never = format!("admits: a\n{shut}");
    for (text, status) in [(E, 0), (bottomless, 7), (none, 6), (shut, 8), (&never, 8)] {
        assert_eq!(ward(&["-"], text).status, Some(0), "{text}");
        assert_eq!(ward(&["--status", "-"], text).status, Some(status), "{text}");
    }
    assert_eq!(ward(&["--status", "-"], format!("{none}expect: bottomless\n")).status, Some(4));
}
