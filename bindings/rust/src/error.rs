//! Why a pattern is not compiled, and why a search with a bound ends early.
use crate::sys;
use std::fmt;

/// Why a pattern is not compiled.
///
/// ```
/// let refused = regress_proved::Regex::new("a(b").unwrap_err();
/// assert_eq!(refused.text, "Unbalanced parenthesis");
/// ```
#[derive(Clone, Debug, PartialEq, Eq, PartialOrd, Ord, Hash)]
pub struct Error {
    /// What is wrong.
    pub text: String,
    place: Option<usize>,
}

impl Error {
    /// Where reading stopped, in bytes of the pattern, or in code points of one that was given as such. `None` where the pattern goes
    /// over a limit, as over that of [`RegexBuilder::size_limit`](crate::RegexBuilder::size_limit).
    ///
    /// ```
    /// let refused = regress_proved::Regex::new("ab*{2}").unwrap_err();
    /// assert!(refused.place() >= Some(3));
    /// ```
    pub fn place(&self) -> Option<usize> {
        self.place
    }

    /// What the library tells, where the place is in its own units.
    pub(crate) fn of_failure(failure: &sys::Failure) -> Error {
        let length = failure.text.iter().position(|&byte| byte == 0).unwrap_or(failure.text.len());
        let text = String::from_utf8_lossy(&failure.text[..length]).into_owned();
        Error { text, place: (failure.code == sys::SYNTAX).then_some(failure.place) }
    }

    pub(crate) fn at(text: &str, place: usize) -> Error {
        Error { text: text.into(), place: Some(place) }
    }

    /// The same with its place told otherwise.
    pub(crate) fn placed(self, tell: impl FnOnce(usize) -> usize) -> Error {
        Error { place: self.place.map(tell), ..self }
    }
}

impl fmt::Display for Error {
    fn fmt(&self, f: &mut fmt::Formatter<'_>) -> fmt::Result {
        f.write_str(&self.text)
    }
}

impl std::error::Error for Error {}

/// Why a search with a bound ends early.
#[derive(Clone, Copy, Debug, PartialEq, Eq, Hash)]
pub enum SearchError {
    /// A request of the library for memory was refused.
    OutOfMemory,
    /// It would take more steps than it may.
    TooManySteps,
}

impl fmt::Display for SearchError {
    fn fmt(&self, f: &mut fmt::Formatter<'_>) -> fmt::Result {
        f.write_str(match self {
            SearchError::OutOfMemory => "out of memory",
            SearchError::TooManySteps => "too many steps",
        })
    }
}

impl std::error::Error for SearchError {}
