//! What went wrong, and how it is said.

use crate::json::Json;
use segvartin::YuvError;
use std::ffi::{OsStr, OsString};
use std::io;

/// An error: a refusal of the library, which has a number, or something that it was not asked about.
#[derive(Debug)]
pub struct Failure {
    file: Option<OsString>,
    number: Option<u32>,
    message: String,
    /// Expected and received, where they are numbers.
    sizes: Option<(usize, usize)>,
    hint: String,
}

impl Failure {
    /// What is said is `what: expected .., received ..`, and what to do.
    pub fn new(what: &str, expected: &str, received: &str, hint: impl Into<String>) -> Failure {
        Failure {
            file: None,
            number: None,
            message: format!("{what}: expected {expected}, received {received}"),
            sizes: None,
            hint: hint.into(),
        }
    }

    pub fn of_sizes(
        what: &str,
        expected: usize,
        received: usize,
        hint: impl Into<String>,
    ) -> Failure {
        Failure {
            message: what.to_owned(),
            sizes: Some((expected, received)),
            ..Failure::new("", "", "", hint)
        }
    }

    pub fn system(what: &str, expected: &str, error: &io::Error, hint: &str) -> Failure {
        let text = error.to_string();
        let said = text.split(" (os error").next().unwrap_or_default();
        Failure::new(what, expected, said, hint)
    }

    /// With the name of the file that it is about, where none is said yet.
    pub fn of(mut self, file: &OsStr) -> Failure {
        self.file.get_or_insert_with(|| file.to_owned());
        self
    }

    /// With what had been done before it.
    pub fn after(mut self, done: &str) -> Failure {
        self.message = format!("{done}: {}", self.message);
        self
    }

    /// With something else to do.
    pub fn hint(mut self, hint: impl Into<String>) -> Failure {
        self.hint = hint.into();
        self
    }

    /// Two lines; as JSON one.
    pub fn text(&self, command: &str, json: bool) -> String {
        if json {
            return format!("{}\n", self.as_json(command));
        }
        let mut text = ["segvartin", command].join(" ").trim_end().to_owned() + ": ";
        if let Some(file) = &self.file {
            text += &format!("{}: ", shown(file));
        }
        if let Some(number) = self.number {
            text += &format!("refused {number}, ");
        }
        text += &escaped(&self.message);
        if let Some((expected, received)) = self.sizes {
            text += &format!(": expected {expected}, received {received}");
        }
        text + "\n  try: " + &escaped(&self.hint) + "\n"
    }

    fn as_json(&self, command: &str) -> Json {
        let size = |of: fn(&(usize, usize)) -> usize| self.sizes.as_ref().map(of);
        Json::Object(vec![(
            "error",
            Json::Object(vec![
                ("command", Json::from(command)),
                ("file", self.file.as_deref().map_or(Json::Null, Json::name)),
                ("number", self.number.map_or(Json::Null, Json::number)),
                ("message", Json::from(&*self.message)),
                (
                    "expected",
                    size(|sizes| sizes.0).map_or(Json::Null, Json::number),
                ),
                (
                    "received",
                    size(|sizes| sizes.1).map_or(Json::Null, Json::number),
                ),
                ("try", Json::from(&*self.hint)),
            ]),
        )])
    }
}

/// The library's words stand in its error between the number and the sizes.
impl From<YuvError> for Failure {
    fn from(error: YuvError) -> Failure {
        let text = error.to_string();
        let words = text.split_once(": ").map_or(&*text, |(_, words)| words);
        let words = words.split(", expected ").next().unwrap_or_default();
        let sizes = error
            .size()
            .map_or((0, 0), |size| (size.expected, size.received));
        Failure {
            number: Some(error.number()),
            ..Failure::of_sizes(words, sizes.0, sizes.1, advice(&error))
        }
    }
}

fn advice(error: &YuvError) -> &'static str {
    match error {
        YuvError::MalformedShiftFile => {
            "a shift file, as `segvartin convert --to shift` writes it, of up to 4096 records"
        }
        YuvError::SummaryMismatch => "segvartin shift summary FILE, which writes its summary anew",
        YuvError::MalformedY4m => "a whole Y4M file of 8 bits in 4:2:0 or 4:2:2",
        YuvError::ZeroBaseSize => "a width and a height of 1 or more",
        YuvError::SizeTooLarge => "a source of up to 16384 x 16384 pixels",
        YuvError::MatrixNotAccepted => "--kr and --kb from 0 to 0.5",
        YuvError::WindowOutsideSource => "a --window WxH+X+Y that ends inside the picture",
        YuvError::MinimumStrideSizeMismatch(_) => "a --stride of at least width x bytes a pixel",
        YuvError::SettingsRecorded => {
            "keep the form with settings: the other one has no place for them"
        }
        _ => "a whole picture, or for raw ones the --size, --pix-fmt and --stride that it has",
    }
}

/// A name in a line.
pub fn shown(name: &OsStr) -> String {
    escaped(&name.to_string_lossy())
}

/// What would end the line or steer the terminal is escaped.
fn escaped(text: &str) -> String {
    let one = |c: char| {
        if c.is_control() {
            c.escape_default().to_string()
        } else {
            c.to_string()
        }
    };
    text.chars().map(one).collect()
}

#[cfg(test)]
mod tests {
    use super::*;
    use segvartin::MismatchedSize;

    #[test]
    fn refusals_are_said_with_their_numbers() {
        let size = MismatchedSize {
            expected: 9,
            received: 8,
        };
        let failure =
            Failure::from(YuvError::DestinationSizeMismatch(size)).of(OsStr::new("a\n.raw"));
        let text = failure.text("convert", false);
        assert!(text.starts_with("segvartin convert: a\\n.raw: refused 6, the source is too short: expected 9, received 8\n  try: "));
        let json = Failure::from(YuvError::MalformedShiftFile)
            .hint("x")
            .text("compare", true);
        let start = r#"{"error":{"command":"compare","file":null,"number":15,"message":"the layout of a shift file is broken","#;
        assert_eq!(
            json,
            format!("{start}\"expected\":0,\"received\":0,\"try\":\"x\"}}}}\n")
        );
    }
}
