//! Values of JSON that are made here, and how values are shown.

use crate::json::Value;
use std::fmt;

/// An object with these members.
pub fn object(members: Vec<(&str, Value)>) -> Value {
    Value::Object(members.into_iter().map(|(key, value)| (key.to_owned(), value)).collect())
}

impl Value {
    pub fn of(number: usize) -> Value {
        Value::Number(number.to_string())
    }

    pub fn text(text: impl Into<String>) -> Value {
        Value::Text(text.into())
    }

    /// An array of texts.
    pub fn list<'a>(texts: impl IntoIterator<Item = &'a str>) -> Value {
        Value::Array(texts.into_iter().map(Value::text).collect())
    }
}

/// As twire writes it, with the escapes of Rust in texts: those are for people, and no text of a plan has any.
impl fmt::Display for Value {
    fn fmt(&self, f: &mut fmt::Formatter) -> fmt::Result {
        let joined = |parts: Vec<String>| parts.join(",");
        match self {
            Value::Object(members) => {
                let members = members.iter().map(|(key, value)| format!("{key:?}:{value}"));
                write!(f, "{{{}}}", joined(members.collect()))
            }
            Value::Array(items) => write!(f, "[{}]", joined(items.iter().map(Value::to_string).collect())),
            Value::Text(text) => write!(f, "{text:?}"),
            Value::Number(digits) => f.write_str(digits),
            Value::Bool(is_so) => write!(f, "{is_so}"),
            Value::Null => f.write_str("null"),
        }
    }
}
