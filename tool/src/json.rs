//! Answers for programs: as much of JSON as they need, written.

use std::fmt;

/// A value.
pub enum Json {
    /// Yes or no.
    Bool(bool),
    /// A whole number; amounts are in cents.
    Number(i128),
    /// A text.
    Text(String),
    /// Values one after the other.
    List(Vec<Json>),
    /// Values by name, in the order given.
    Object(Vec<(&'static str, Json)>),
}

/// An object of these.
pub fn object<const N: usize>(members: [(&'static str, Json); N]) -> Json {
    Json::Object(members.into())
}

impl Json {
    /// The object with more members behind its own.
    pub fn with<const N: usize>(self, more: [(&'static str, Json); N]) -> Json {
        match self {
            Json::Object(mut members) => {
                members.extend(more);
                Json::Object(members)
            }
            other => other,
        }
    }
}

impl From<bool> for Json {
    fn from(value: bool) -> Json {
        Json::Bool(value)
    }
}

impl From<&str> for Json {
    fn from(text: &str) -> Json {
        Json::Text(text.into())
    }
}

impl From<String> for Json {
    fn from(text: String) -> Json {
        Json::Text(text)
    }
}

/// Numbers of any type that fits.
pub fn number(number: impl TryInto<i128>) -> Json {
    Json::Number(number.try_into().unwrap_or_default())
}

impl fmt::Display for Json {
    fn fmt(&self, to: &mut fmt::Formatter) -> fmt::Result {
        match self {
            Json::Bool(value) => write!(to, "{value}"),
            Json::Number(number) => write!(to, "{number}"),
            Json::Text(text) => quoted(text, to),
            Json::List(values) => {
                to.write_str("[")?;
                for (i, value) in values.iter().enumerate() {
                    write!(to, "{}{value}", if i == 0 { "" } else { "," })?;
                }
                to.write_str("]")
            }
            Json::Object(members) => {
                to.write_str("{")?;
                for (i, (name, value)) in members.iter().enumerate() {
                    to.write_str(if i == 0 { "" } else { "," })?;
                    quoted(name, to)?;
                    write!(to, ":{value}")?;
                }
                to.write_str("}")
            }
        }
    }
}

fn quoted(text: &str, to: &mut fmt::Formatter) -> fmt::Result {
    to.write_str("\"")?;
    for c in text.chars() {
        match c {
            '"' | '\\' => write!(to, "\\{c}")?,
            _ if c.is_control() || matches!(c, '\u{2028}' | '\u{2029}') => write!(to, "\\u{:04x}", u32::from(c))?,
            _ => write!(to, "{c}")?,
        }
    }
    to.write_str("\"")
}

#[cfg(test)]
mod tests {
    use super::{Json, number, object};

    #[test]
    fn written() {
        let value = object([
            ("a", number(-3_i64)),
            ("b", Json::List(vec![true.into(), "x\"\\\n".into()])),
            ("c", object([("d", Json::List(Vec::new()))])),
        ]);
        assert_eq!(value.to_string(), r#"{"a":-3,"b":[true,"x\"\\\u000a"],"c":{"d":[]}}"#);
    }
}
