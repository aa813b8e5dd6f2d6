//! JSON documents: values, and a writer that keeps the order of the keys.

/// A value of a document.
#[derive(Clone, Debug, PartialEq, Eq)]
pub enum Value {
    Null,
    Truth(bool),
    Number(u64),
    Text(String),
    List(Vec<Value>),
    Object(Vec<(&'static str, Value)>),
}

impl Value {
    pub fn text(text: &str) -> Value {
        Value::Text(text.to_string())
    }

    pub fn number(number: usize) -> Value {
        Value::Number(number as u64)
    }

    pub fn texts<T: AsRef<str>>(texts: impl IntoIterator<Item = T>) -> Value {
        let texts = texts.into_iter();
        Value::List(texts.map(|text| Value::text(text.as_ref())).collect())
    }
}

/// The document of a value, with a line for each member of an object and for each object in a list.
pub fn document(value: &Value) -> String {
    let mut out = String::new();
    write(&mut out, value, 0);
    out.push('\n');
    out
}

/// Writes a value whose lines are indented by so many steps. Values are as deep as the program makes them.
fn write(out: &mut String, value: &Value, depth: usize) {
    match value {
        Value::Null => out.push_str("null"),
        Value::Truth(truth) => out.push_str(if *truth { "true" } else { "false" }),
        Value::Number(number) => out.push_str(&number.to_string()),
        Value::Text(text) => write_text(out, text),
        Value::List(list) => write_list(out, list, depth),
        Value::Object(members) => write_object(out, members, depth),
    }
}

/// Objects stand in lines of their own; other members one behind the other.
fn write_list(out: &mut String, list: &[Value], depth: usize) {
    let in_lines = list.iter().any(|value| matches!(value, Value::Object(_)));
    out.push('[');
    for (place, value) in list.iter().enumerate() {
        separate(out, place, in_lines, depth + 1);
        write(out, value, depth + 1);
    }
    if in_lines {
        new_line(out, depth);
    }
    out.push(']');
}

fn write_object(out: &mut String, members: &[(&str, Value)], depth: usize) {
    out.push('{');
    for (place, (key, value)) in members.iter().enumerate() {
        separate(out, place, true, depth + 1);
        write_text(out, key);
        out.push_str(": ");
        write(out, value, depth + 1);
    }
    new_line(out, depth);
    out.push('}');
}

/// What stands before the member at a place: a comma unless it is the first, and a new line or a blank.
fn separate(out: &mut String, place: usize, in_lines: bool, depth: usize) {
    if place > 0 {
        out.push(',');
    }
    if in_lines {
        new_line(out, depth);
    } else if place > 0 {
        out.push(' ');
    }
}

fn new_line(out: &mut String, depth: usize) {
    out.push('\n');
    out.push_str(&"  ".repeat(depth));
}

fn write_text(out: &mut String, text: &str) {
    out.push('"');
    for character in text.chars() {
        write_character(out, character);
    }
    out.push('"');
}

fn write_character(out: &mut String, character: char) {
    match character {
        '"' => out.push_str("\\\""),
        '\\' => out.push_str("\\\\"),
        '\n' => out.push_str("\\n"),
        '\t' => out.push_str("\\t"),
        '\r' => out.push_str("\\r"),
        control if control < ' ' => out.push_str(&format!("\\u{:04x}", u32::from(control))),
        other => out.push(other),
    }
}
