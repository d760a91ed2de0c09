//! JSON, written.
use std::fmt;

/// A value of JSON.
pub enum Json {
    Null,
    Bool(bool),
    Number(i64),
    Text(String),
    List(Vec<Json>),
    Object(Vec<(&'static str, Json)>),
}

impl Json {
    /// Makes a text.
    pub fn text(text: impl Into<String>) -> Json {
        Json::Text(text.into())
    }

    /// Makes a number of any whole number that the command knows: none is above 64 bits.
    pub fn number(number: impl TryInto<i64>) -> Json {
        number.try_into().map_or(Json::Null, Json::Number)
    }

    /// Makes what there is, or null.
    pub fn of<T>(value: Option<T>, make: impl FnOnce(T) -> Json) -> Json {
        value.map_or(Json::Null, make)
    }

    /// Writes the value; what is inside it stands on lines of its own, two blanks further in.
    fn write(&self, f: &mut fmt::Formatter, depth: usize) -> fmt::Result {
        match self {
            Json::Null => write!(f, "null"),
            Json::Bool(value) => write!(f, "{value}"),
            Json::Number(number) => write!(f, "{number}"),
            Json::Text(text) => write_text(f, text),
            Json::List(items) if items.is_empty() => write!(f, "[]"),
            Json::List(items) => {
                write!(f, "[")?;
                for (nth, item) in items.iter().enumerate() {
                    next_line(f, nth > 0, depth + 1)?;
                    item.write(f, depth + 1)?;
                }
                next_line(f, false, depth)?;
                write!(f, "]")
            }
            Json::Object(members) => {
                write!(f, "{{")?;
                for (nth, (name, member)) in members.iter().enumerate() {
                    next_line(f, nth > 0, depth + 1)?;
                    write!(f, "\"{name}\": ")?;
                    member.write(f, depth + 1)?;
                }
                next_line(f, false, depth)?;
                write!(f, "}}")
            }
        }
    }
}

fn next_line(f: &mut fmt::Formatter, comma: bool, depth: usize) -> fmt::Result {
    write!(f, "{}\n{:width$}", if comma { "," } else { "" }, "", width = 2 * depth)
}

/// Writes a text in quotation marks; those inside it, the backslash and control characters are escaped.
fn write_text(f: &mut fmt::Formatter, text: &str) -> fmt::Result {
    write!(f, "\"")?;
    for character in text.chars() {
        match character {
            '"' | '\\' => write!(f, "\\{character}")?,
            control if control < ' ' => write!(f, "\\u{:04x}", u32::from(control))?,
            other => write!(f, "{other}")?,
        }
    }
    write!(f, "\"")
}

impl fmt::Display for Json {
    fn fmt(&self, f: &mut fmt::Formatter) -> fmt::Result {
        self.write(f, 0)
    }
}

#[cfg(test)]
mod tests {
    use super::Json;

    #[test]
    fn values_are_written_as_json_has_them() {
        let value = Json::Object(vec![
            ("none", Json::Null),
            ("list", Json::List(vec![Json::Number(-1), Json::Bool(true), Json::List(vec![])])),
            ("text", Json::text("a\"b\\c\n\u{e9}")),
        ]);
        let written =
            "{\n  \"none\": null,\n  \"list\": [\n    -1,\n    true,\n    []\n  ],\n  \"text\": \"a\\\"b\\\\c\\u000a\u{e9}\"\n}";
        assert_eq!(value.to_string(), written);
    }
}
