//! Searches that may take so many steps, and no more.
use crate::error::SearchError;
use crate::found::Match;
use crate::handle::Text;
use crate::matches::BoundedMatches;
use crate::regex::{check_start, check_unit_start, Regex};
use crate::replacing::{expand, replaced};

/// A pattern, and how many steps each search for a match may take: from [`Regex::within`]. Its calls answer what those of [`Regex`]
/// answer, or err where a search would take more steps.
///
/// A step does the instruction of one state of the pattern's program, or drops the state. One more is counted for each 64 bytes or units
/// that a class passes over or that a back reference compares. Looking for the next place where a match may begin is not counted. Each
/// search for a match has the steps anew, also in an iteration: all of n matches take at most n + 1 times as many, and the first n of
/// more fewer than 2n times, since some are found ahead. No clock plays a part: the same search stops at the same step everywhere.
///
/// ```
/// let commas = regress_proved::Regex::new(r"(?:\\.|[^,])+").unwrap();
/// for field in commas.within(1_000_000).find_iter("a,b\\,c") {
///     println!("{:?}", field?.range()); // 0..1, then 2..6
/// }
/// # Ok::<(), regress_proved::SearchError>(())
/// ```
#[derive(Clone, Copy, Debug)]
pub struct Bounded<'r> {
    regex: &'r Regex,
    steps: usize,
}

impl<'r> Bounded<'r> {
    pub(crate) fn new(regex: &'r Regex, steps: usize) -> Self {
        Bounded { regex, steps }
    }

    fn matches<'t>(&self, text: Text<'t>, start: usize) -> BoundedMatches<'r, 't> {
        BoundedMatches(self.regex.matches_within(self.steps, text, start))
    }

    /// The first match in a text.
    pub fn find(&self, text: &str) -> Result<Option<Match>, SearchError> {
        self.find_iter(text).next().transpose()
    }

    /// Whether there is a match in a text.
    pub fn is_match(&self, text: &str) -> Result<bool, SearchError> {
        self.find(text).map(|found| found.is_some())
    }

    /// The matches in a text, one behind another. After an error there are no more.
    pub fn find_iter<'t>(&self, text: &'t str) -> BoundedMatches<'r, 't> {
        self.find_from(text, 0)
    }

    /// The matches from the byte `start` on, as [`Regex::find_from`] tells them.
    ///
    /// # Panics
    ///
    /// Where `start` lies inside of a character.
    pub fn find_from<'t>(&self, text: &'t str, start: usize) -> BoundedMatches<'r, 't> {
        check_start(text, start);
        self.matches(Text::Utf8(text), start)
    }

    /// The matches in a text of UTF-16 from the unit `start` on, as [`Regex::find_from_utf16`] tells them.
    ///
    /// # Panics
    ///
    /// Where `start` lies between the two units of a character.
    pub fn find_from_utf16<'t>(&self, text: &'t [u16], start: usize) -> BoundedMatches<'r, 't> {
        check_unit_start(text, start);
        self.matches(Text::Utf16(text), start)
    }

    /// The matches in a text of 16-bit units that are one character each, as [`Regex::find_from_ucs2`] tells them.
    pub fn find_from_ucs2<'t>(&self, text: &'t [u16], start: usize) -> BoundedMatches<'r, 't> {
        self.matches(Text::Ucs2(text), start)
    }

    /// A text with its first match replaced, as [`Regex::replace`] does.
    pub fn replace(&self, text: &str, replacement: &str) -> Result<String, SearchError> {
        let first = self.find(text)?;
        Ok(replaced(text, first.into_iter(), |found, made| expand(replacement, found, text, made)))
    }

    /// A text with each match replaced, as [`Regex::replace_all`] does.
    ///
    /// ```
    /// let spaces = regress_proved::Regex::new(r"\s+").unwrap();
    /// assert_eq!(spaces.within(1_000_000).replace_all("a  b\tc", " ")?, "a b c");
    /// # Ok::<(), regress_proved::SearchError>(())
    /// ```
    pub fn replace_all(&self, text: &str, replacement: &str) -> Result<String, SearchError> {
        let matches = self.find_iter(text).collect::<Result<Vec<_>, _>>()?;
        Ok(replaced(text, matches.into_iter(), |found, made| expand(replacement, found, text, made)))
    }
}
