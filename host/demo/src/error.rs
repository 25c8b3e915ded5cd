//! Why the tool stops: the one line that it prints on standard error.

use std::{ffi::OsStr, fmt, io};

use restoration::Refusal;

pub enum Error {
    /// A file, an option or a value that the tool itself rejects.
    Invalid(String),
    /// The library's refusal of this subject.
    Refused(String, Refusal),
}

impl Error {
    pub fn invalid(what: impl Into<String>) -> Self {
        Self::Invalid(what.into())
    }

    /// A command line that `--help` explains.
    pub fn usage(what: impl fmt::Display) -> Self {
        Self::Invalid(format!("{what} (see --help)"))
    }

    pub fn cannot_read(what: impl fmt::Display, error: &io::Error) -> Self {
        Self::Invalid(format!("cannot read {what}: {}", reason(error)))
    }

    pub fn cannot_write(what: impl fmt::Display, error: &io::Error) -> Self {
        Self::Invalid(format!("cannot write {what}: {}", reason(error)))
    }
}

impl fmt::Display for Error {
    fn fmt(&self, f: &mut fmt::Formatter) -> fmt::Result {
        match self {
            Self::Invalid(what) => f.write_str(what),
            Self::Refused(subject, refusal) => {
                let (meaning, number) = (refusal.meaning(), refusal.number());
                write!(f, "{subject}: {meaning} (refusal {number})")
            }
        }
    }
}

/// Names the subject of a refusal.
pub trait Of<T> {
    fn of(self, subject: impl FnOnce() -> String) -> Result<T, Error>;
}

impl<T> Of<T> for Result<T, Refusal> {
    fn of(self, subject: impl FnOnce() -> String) -> Result<T, Error> {
        self.map_err(|refusal| Error::Refused(subject(), refusal))
    }
}

/// A name or a value in quotes, on one line whatever it contains.
pub fn quoted(text: impl AsRef<OsStr>) -> String {
    format!("'{}'", text.as_ref().to_string_lossy().escape_debug())
}

/// An error's text without the number that Rust appends to the system's text.
fn reason(error: &io::Error) -> String {
    let text = error.to_string();
    let Some(code) = error.raw_os_error() else {
        return text;
    };
    let number = format!(" (os error {code})");
    text.strip_suffix(&number).unwrap_or(&text).into()
}

#[cfg(test)]
mod tests {
    use super::*;

    #[test]
    fn only_refusals_have_a_number() {
        let refused = Error::Refused("--rect 0,0,0,5".into(), Refusal::OutOfLimits);
        let meaning = Refusal::OutOfLimits.meaning();
        let line = format!("--rect 0,0,0,5: {meaning} (refusal 4)");
        assert_eq!(refused.to_string(), line);
        assert_eq!(Error::invalid("x").to_string(), "x");
        assert_eq!(Error::usage("x").to_string(), "x (see --help)");
    }

    #[test]
    fn reasons_are_the_systems_text() {
        let absent = io::Error::from_raw_os_error(2);
        assert_eq!(reason(&absent), "No such file or directory");
        assert_eq!(
            reason(&io::Error::other("not a regular file")),
            "not a regular file"
        );
    }

    #[test]
    fn a_quoted_name_is_one_line() {
        assert_eq!(quoted("a b.pfm"), "'a b.pfm'");
        assert_eq!(quoted("a\nb\x1b[31m"), r"'a\nb\u{1b}[31m'");
    }
}
