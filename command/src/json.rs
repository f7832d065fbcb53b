//! Values for `--json`, and their text on one line.

use std::fmt;

#[derive(Debug, Clone, PartialEq)]
pub enum Json {
    Number(i64),
    /// Seconds, to the microsecond.
    Seconds(f64),
    Text(String),
    /// The text of a value, as it stands.
    Written(String),
    List(Vec<Json>),
    Object(Vec<(&'static str, Json)>),
}

impl Json {
    pub fn text(text: &str) -> Json {
        Json::Text(String::from(text))
    }

    pub fn count(number: usize) -> Json {
        Json::Number(i64::try_from(number).unwrap_or(i64::MAX))
    }

    pub fn atoms(set: &[u16]) -> Json {
        Json::List(set.iter().map(|atom| Json::Number(i64::from(*atom))).collect())
    }

    pub fn texts(texts: &[String]) -> Json {
        Json::List(texts.iter().map(|text| Json::text(text)).collect())
    }
}

impl fmt::Display for Json {
    fn fmt(&self, f: &mut fmt::Formatter) -> fmt::Result {
        match self {
            Json::Number(number) => write!(f, "{number}"),
            Json::Seconds(seconds) => write!(f, "{seconds:.6}"),
            Json::Text(text) => quoted(text, f),
            Json::Written(text) => f.write_str(text),
            Json::List(values) => between(f, '[', values, |value, f| value.fmt(f), ']'),
            Json::Object(fields) => between(f, '{', fields, |(name, value), f| write!(f, "\"{name}\": {value}"), '}'),
        }
    }
}

fn between<T>(
    f: &mut fmt::Formatter,
    open: char,
    parts: &[T],
    part: impl Fn(&T, &mut fmt::Formatter) -> fmt::Result,
    close: char,
) -> fmt::Result {
    write!(f, "{open}")?;
    for (place, value) in parts.iter().enumerate() {
        if place > 0 {
            write!(f, ", ")?;
        }
        part(value, f)?;
    }
    write!(f, "{close}")
}

fn quoted(text: &str, f: &mut fmt::Formatter) -> fmt::Result {
    write!(f, "\"")?;
    for letter in text.chars() {
        match letter {
            '"' | '\\' => write!(f, "\\{letter}")?,
            '\n' => write!(f, "\\n")?,
            _ if letter < ' ' => write!(f, "\\u{:04x}", letter as u32)?,
            _ => write!(f, "{letter}")?,
        }
    }
    write!(f, "\"")
}

#[cfg(test)]
mod tests {
    use super::*;

    #[test]
    fn text_of_values() {
        let value = Json::Object(vec![
            ("a", Json::Number(-3)),
            ("b", Json::List(vec![Json::text("x\"\\\n\u{1}é"), Json::count(2)])),
            ("c", Json::List(Vec::new())),
            ("d", Json::Seconds(0.25)),
        ]);
        assert_eq!(value.to_string(), r#"{"a": -3, "b": ["x\"\\\n\u0001é", 2], "c": [], "d": 0.250000}"#);
        assert_eq!(Json::Object(vec![("e", Json::Written(String::from("[1]")))]).to_string(), r#"{"e": [1]}"#);
    }
}
