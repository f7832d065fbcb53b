//! What a subcommand comes to: an answer, or a reason why there is none.

use crate::json::Json;

/// The exit status.
#[derive(Debug, Clone, Copy, PartialEq, Eq)]
pub enum Status {
    /// 'inconsistent', 'yes' or 'cheapest', or what was asked for is done.
    Good = 0,
    /// The command cannot be carried out: arguments, files, tools.
    Misuse = 2,
    /// 'open' or 'no'.
    No = 10,
    /// An input is refused.
    Refused = 20,
}

/// An answer.
#[derive(Debug, Clone)]
pub struct Outcome {
    pub status: Status,
    /// What goes to the standard output without `--json`.
    pub line: String,
    /// What goes to the standard error, a line each.
    pub words: Vec<String>,
    /// What goes to the standard output with `--json`.
    pub fields: Vec<(&'static str, Json)>,
}

impl Outcome {
    /// A text for people who asked for it.
    pub fn text(text: String) -> Outcome {
        Outcome { status: Status::Good, fields: vec![("text", Json::text(&text))], line: text, words: Vec::new() }
    }

    /// With a reason, in the words and as a field.
    pub fn for_reason(mut self, why: String) -> Outcome {
        self.fields.push(("reason", Json::text(&why)));
        self.words.push(why);
        self
    }

    /// With what another service says: in the words, and as a field.
    pub fn explained_by(mut self, field: &'static str, service: &str, told: Outcome) -> Outcome {
        self.words.push(format!("{service} says: {}", told.line));
        self.words.extend(told.words);
        self.fields.push((field, Json::Object(told.fields)));
        self
    }
}

/// Why there is no answer, in one line.
#[derive(Debug, Clone, PartialEq, Eq)]
pub struct Failure {
    pub status: Status,
    pub message: String,
}

impl Failure {
    pub fn misuse(message: impl Into<String>) -> Failure {
        Failure { status: Status::Misuse, message: message.into() }
    }

    pub fn refused(message: impl Into<String>) -> Failure {
        Failure { status: Status::Refused, message: message.into() }
    }
}

impl From<aspdrupe::LongFailure> for Failure {
    fn from(failure: aspdrupe::LongFailure) -> Failure {
        match failure {
            aspdrupe::LongFailure::Memory(_) => Failure::misuse(failure.to_string()),
            aspdrupe::LongFailure::Unknown(unknown) => Failure::from(unknown),
        }
    }
}

impl From<aspdrupe::UnknownAnswer> for Failure {
    fn from(unknown: aspdrupe::UnknownAnswer) -> Failure {
        Failure::misuse(format!("this command and its library do not belong together: {unknown}"))
    }
}
