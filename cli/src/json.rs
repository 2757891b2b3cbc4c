//! JSON, as much of it as the program writes.

use std::ffi::OsStr;
use std::fmt::{Display, Formatter, Write};

pub enum Json {
    Null,
    Bool(bool),
    Number(u64),
    Text(String),
    List(Vec<Json>),
    Object(Vec<(&'static str, Json)>),
}

impl Json {
    pub fn number(number: impl TryInto<u64>) -> Json {
        number.try_into().map_or(Json::Null, Json::Number)
    }

    /// A file's name; what is no UTF-8 in it is replaced, since JSON has nothing else.
    pub fn name(name: &OsStr) -> Json {
        Json::Text(name.to_string_lossy().into_owned())
    }

    /// As it is printed.
    pub fn line(&self) -> String {
        format!("{self}\n")
    }
}

impl From<&str> for Json {
    fn from(text: &str) -> Json {
        Json::Text(text.to_owned())
    }
}

/// What there is none of is null.
impl<T: Into<Json>> From<Option<T>> for Json {
    fn from(value: Option<T>) -> Json {
        value.map_or(Json::Null, T::into)
    }
}

impl Display for Json {
    fn fmt(&self, f: &mut Formatter<'_>) -> std::fmt::Result {
        match self {
            Json::Null => f.write_str("null"),
            Json::Bool(value) => write!(f, "{value}"),
            Json::Number(number) => write!(f, "{number}"),
            Json::Text(text) => quoted(f, text),
            Json::List(items) => {
                f.write_char('[')?;
                for (k, item) in items.iter().enumerate() {
                    write!(f, "{}{item}", if k > 0 { "," } else { "" })?;
                }
                f.write_char(']')
            }
            Json::Object(fields) => {
                f.write_char('{')?;
                for (k, (name, value)) in fields.iter().enumerate() {
                    write!(f, "{}\"{name}\":{value}", if k > 0 { "," } else { "" })?;
                }
                f.write_char('}')
            }
        }
    }
}

fn quoted(f: &mut Formatter<'_>, text: &str) -> std::fmt::Result {
    f.write_char('"')?;
    for c in text.chars() {
        match c {
            '"' | '\\' => write!(f, "\\{c}")?,
            c if c < ' ' => write!(f, "\\u{:04x}", u32::from(c))?,
            c => f.write_char(c)?,
        }
    }
    f.write_char('"')
}

#[cfg(test)]
mod tests {
    use super::*;

    #[test]
    fn text_is_quoted() {
        let json = Json::Object(vec![
            ("name", Json::from("a \"b\"\n\\é")),
            ("list", Json::List(vec![Json::Number(1), Json::Null])),
        ]);
        assert_eq!(
            json.to_string(),
            r#"{"name":"a \"b\"\u000a\\é","list":[1,null]}"#
        );
    }
}
