//! Patterns that are compiled within a limit.
use crate::error::Error;
use crate::flags::Flags;
use crate::regex::Regex;
use crate::sys;

/// Compiles a pattern with flags, within a limit on what it may become, in the manner of the crate `regex`.
///
/// ```
/// let refused = regress_proved::RegexBuilder::new("(?:a|b){5}").size_limit(30).build().unwrap_err();
/// assert_eq!(refused.to_string(), "pattern costs more than its limit");
/// ```
#[derive(Clone, Debug)]
pub struct RegexBuilder {
    pattern: String,
    flags: Flags,
    limit: usize,
}

impl RegexBuilder {
    /// A builder for a pattern, without flags and with a limit of 1,000,000 instructions.
    pub fn new(pattern: &str) -> RegexBuilder {
        RegexBuilder { pattern: pattern.into(), flags: Flags::default(), limit: sys::DEFAULT_LIMIT }
    }

    /// Sets the flags, which may be given as [`Flags`] or by their letters.
    pub fn flags<F>(&mut self, flags: F) -> &mut RegexBuilder
    where
        F: Into<Flags>,
    {
        self.flags = flags.into();
        self
    }

    /// Sets how many instructions a program of the pattern may have, where the crate `regex` counts bytes. There are two programs, for
    /// texts in bytes and in units, and neither has more. What a pattern may become is told before anything of that size is made.
    pub fn size_limit(&mut self, limit: usize) -> &mut RegexBuilder {
        self.limit = limit;
        self
    }

    /// Compiles the pattern.
    ///
    /// ```
    /// let names = regress_proved::RegexBuilder::new(r"^\p{Lu}\w+$").flags("u").size_limit(10_000).build()?;
    /// assert!(names.find("Émile").is_some() && names.find("emil").is_none());
    /// # Ok::<(), regress_proved::Error>(())
    /// ```
    pub fn build(&self) -> Result<Regex, Error> {
        Regex::limited(&self.pattern, self.flags, self.limit)
    }
}
