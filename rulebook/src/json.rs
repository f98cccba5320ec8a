//! Well-formed JSON, written by hand.

use std::fmt::Write;

pub enum Json {
    Null,
    Number(usize),
    Text(String),
    List(Vec<Json>),
    Object(Vec<(&'static str, Json)>),
}

pub fn text(text: impl Into<String>) -> Json {
    Json::Text(text.into())
}

pub fn list<T>(items: impl IntoIterator<Item = T>, json: impl FnMut(T) -> Json) -> Json {
    Json::List(items.into_iter().map(json).collect())
}

impl From<Option<usize>> for Json {
    fn from(number: Option<usize>) -> Json {
        number.map_or(Json::Null, Json::Number)
    }
}

fn quoted(text: &str, out: &mut String) {
    out.push('"');
    for c in text.chars() {
        match c {
            '"' => out.push_str("\\\""),
            '\\' => out.push_str("\\\\"),
            '\n' => out.push_str("\\n"),
            '\t' => out.push_str("\\t"),
            c if c.is_control() || ('\u{2028}'..='\u{2029}').contains(&c) => _ = write!(out, "\\u{:04x}", c as u32),
            c => out.push(c),
        }
    }
    out.push('"');
}

impl Json {
    pub fn write(&self, out: &mut String) {
        match self {
            Json::Null => out.push_str("null"),
            Json::Number(number) => _ = write!(out, "{number}"),
            Json::Text(text) => quoted(text, out),
            Json::List(items) => {
                out.push('[');
                for (place, item) in items.iter().enumerate() {
                    if place > 0 {
                        out.push_str(", ");
                    }
                    item.write(out);
                }
                out.push(']');
            }
            Json::Object(members) => {
                out.push('{');
                for (place, (name, value)) in members.iter().enumerate() {
                    if place > 0 {
                        out.push_str(", ");
                    }
                    quoted(name, out);
                    out.push_str(": ");
                    value.write(out);
                }
                out.push('}');
            }
        }
    }
}

#[cfg(test)]
mod tests {
    use super::*;

    #[test]
    fn texts_are_escaped() {
        let mut out = String::new();
        let value = Json::Object(vec![
            ("a", text("\"\\\n\u{1}ø")),
            ("b", list([1, 2], Json::Number)),
            ("c", Json::from(None)),
            ("d", Json::List(vec![])),
        ]);
        value.write(&mut out);
        assert_eq!(out, "{\"a\": \"\\\"\\\\\\n\\u0001ø\", \"b\": [1, 2], \"c\": null, \"d\": []}");
    }
}
