//! A value of the command's `--json`, read back.

/// A value; what a place has not is none.
#[derive(Debug, Clone, PartialEq)]
pub enum Value {
    Number(f64),
    Text(String),
    List(Vec<Value>),
    Object(Vec<(String, Value)>),
}

impl Value {
    /// The value that a text is, and nothing behind it.
    pub fn of(text: &str) -> Option<Value> {
        let mut rest = text.trim();
        let value = value(&mut rest)?;
        rest.trim().is_empty().then_some(value)
    }

    pub fn field(&self, name: &str) -> Option<&Value> {
        match self {
            Value::Object(fields) => fields.iter().find(|(of, _)| of == name).map(|(_, value)| value),
            _ => None,
        }
    }

    pub fn number(&self) -> Option<i64> {
        match self {
            Value::Number(number) => Some(*number as i64),
            _ => None,
        }
    }

    /// The values of a list; none of anything else.
    pub fn list(&self) -> &[Value] {
        match self {
            Value::List(values) => values,
            _ => &[],
        }
    }

    /// The numbers of a list.
    pub fn numbers(&self) -> Option<Vec<i32>> {
        self.list().iter().map(|value| i32::try_from(value.number()?).ok()).collect()
    }
}

fn value(rest: &mut &str) -> Option<Value> {
    *rest = rest.trim_start();
    match rest.chars().next()? {
        '[' => listed(rest, ']', value).map(Value::List),
        '{' => listed(rest, '}', field).map(Value::Object),
        '"' => text(rest).map(Value::Text),
        _ => {
            let end = rest.find([',', ']', '}', ' ']).unwrap_or(rest.len());
            let (number, after) = rest.split_at(end);
            *rest = after;
            number.parse().ok().map(Value::Number)
        }
    }
}

/// What stands between brackets, with commas between.
fn listed<T>(rest: &mut &str, close: char, part: fn(&mut &str) -> Option<T>) -> Option<Vec<T>> {
    *rest = rest[1..].trim_start();
    let mut parts = Vec::new();
    while !rest.starts_with(close) {
        parts.push(part(rest)?);
        *rest = rest.trim_start();
        *rest = rest.strip_prefix(',').unwrap_or(rest).trim_start();
    }
    *rest = &rest[1..];
    Some(parts)
}

fn field(rest: &mut &str) -> Option<(String, Value)> {
    let name = text(rest)?;
    *rest = rest.trim_start().strip_prefix(':')?;
    Some((name, value(rest)?))
}

fn text(rest: &mut &str) -> Option<String> {
    let mut letters = rest.strip_prefix('"')?.char_indices();
    let mut found = String::new();
    while let Some((at, letter)) = letters.next() {
        match letter {
            '"' => {
                *rest = &rest[at + 2..];
                return Some(found);
            }
            '\\' => match letters.next()?.1 {
                'n' => found.push('\n'),
                'u' => {
                    let digits: String = letters.by_ref().take(4).map(|(_, digit)| digit).collect();
                    found.push(char::from_u32(u32::from_str_radix(&digits, 16).ok()?)?);
                }
                other => found.push(other),
            },
            _ => found.push(letter),
        }
    }
    None
}

#[cfg(test)]
mod tests {
    use super::*;

    #[test]
    fn values() {
        let value = Value::of(r#"{"a": [1, -2, 0.5], "b": {"c": "x\"\\\n\u0001}"}, "d": [], "e": "é"}"#).unwrap();
        assert_eq!(value.field("a").and_then(|list| list.list()[1].number()), Some(-2));
        let inner = value.field("b").and_then(|inner| inner.field("c"));
        assert_eq!(inner, Some(&Value::Text(String::from("x\"\\\n\u{1}}"))));
        assert_eq!((value.field("d").map(Value::list), value.field("f")), (Some(&[][..]), None));
        for text in ["", "{", "[1", "[1 x]", "{\"a\" 1}", "\"x", "[1]]"] {
            assert_eq!(Value::of(text), None, "{text}");
        }
    }
}
