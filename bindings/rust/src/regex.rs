//! Compiled patterns.
use crate::bounded::Bounded;
use crate::error::Error;
use crate::flags::Flags;
use crate::found::Match;
use crate::handle::{escaped, Handle, Text};
use crate::matches::{AsciiMatches, Matches};
use crate::pool::{Pool, Taken};
use crate::replacing::{expand, replaced};
use crate::sys;
use std::str::FromStr;
use std::sync::Arc;

/// A compiled pattern. Threads may share it.
#[derive(Debug)]
pub struct Regex {
    pool: Pool,
    /// The name of each group, empty where it has none.
    names: Arc<[Box<str>]>,
}

/// The same pattern, with a pool of its own; it is not compiled again.
impl Clone for Regex {
    fn clone(&self) -> Self {
        Regex { pool: self.pool.share(), names: self.names.clone() }
    }
}

impl FromStr for Regex {
    type Err = Error;

    fn from_str(pattern: &str) -> Result<Self, Error> {
        Regex::new(pattern)
    }
}

impl Regex {
    /// Compiles a pattern without flags.
    pub fn new(pattern: &str) -> Result<Regex, Error> {
        Regex::with_flags(pattern, Flags::default())
    }

    /// Compiles a pattern with flags, which may be given as [`Flags`] or by their letters. One is refused that may become more than
    /// 1,000,000 instructions; [`RegexBuilder`](crate::RegexBuilder) takes another limit.
    ///
    /// ```
    /// let greek = regress_proved::Regex::with_flags(r"^\p{Script=Greek}+$", "iu")?;
    /// assert!(greek.find("ΛΌΓΟΣ").is_some());
    /// # Ok::<(), regress_proved::Error>(())
    /// ```
    pub fn with_flags<F>(pattern: &str, flags: F) -> Result<Regex, Error>
    where
        F: Into<Flags>,
    {
        Regex::limited(pattern, flags.into(), sys::DEFAULT_LIMIT)
    }

    /// Compiles a pattern that is given in code points, among which may be halves of pairs.
    pub fn from_unicode<I, F>(pattern: I, flags: F) -> Result<Regex, Error>
    where
        I: Iterator<Item = u32> + Clone,
        F: Into<Flags>,
    {
        let flags = flags.into();
        if let Some(text) = pattern.clone().map(char::from_u32).collect::<Option<String>>() {
            let place_in = |place| text.char_indices().take_while(|(at, _)| *at < place).count();
            return Regex::limited(&text, flags, sys::DEFAULT_LIMIT).map_err(|refused| refused.placed(place_in));
        }
        let units = units_of(pattern, flags)?;
        let place_in = |place| char::decode_utf16(units.iter().copied().take(place)).count();
        Handle::of_units(&units, flags).map(Regex::of).map_err(|refused| refused.placed(place_in))
    }

    /// Compiles a pattern of which no program may have more instructions than the limit.
    pub(crate) fn limited(pattern: &str, flags: Flags, limit: usize) -> Result<Regex, Error> {
        Handle::of_text(pattern, flags, limit).map(Regex::of)
    }

    fn of(mut pattern: Handle) -> Regex {
        let count = pattern.group_count();
        let names = (1..=count).map(|number| pattern.group_name(number).into()).collect();
        Regex { pool: Pool::new(pattern), names }
    }

    fn matches<'r, 't>(&'r self, text: Text<'t>, start: usize) -> Matches<'r, 't> {
        self.matches_by(self.pool.take(), text, start)
    }

    fn matches_by<'r, 't>(&self, search: Taken<'r>, text: Text<'t>, start: usize) -> Matches<'r, 't> {
        Matches::new(search, text, &self.names, self.names.len() + 1, start)
    }

    /// The matches by a search that may take so many steps for each.
    pub(crate) fn matches_within<'r, 't>(&'r self, steps: usize, text: Text<'t>, start: usize) -> Matches<'r, 't> {
        self.matches_by(self.pool.take_within(steps), text, start)
    }

    /// The same pattern for searches that may take so many steps for each match, and err where they would take more. A service sets
    /// them for patterns and texts of strangers, since a short pattern may take very long in a short text.
    ///
    /// ```
    /// use regress_proved::{Regex, SearchError};
    ///
    /// let nested = Regex::new(r"^(\w|\w\w)*!$").unwrap();
    /// let text = "a".repeat(40) + "?!";
    /// assert_eq!(nested.within(100).find(&text).unwrap_err(), SearchError::TooManySteps);
    /// assert!(nested.within(1_000_000).is_match("aaa!")?);
    /// # Ok::<(), SearchError>(())
    /// ```
    pub fn within(&self, steps: usize) -> Bounded<'_> {
        Bounded::new(self, steps)
    }

    /// Whether the pattern is linear: a search by [`Regex::within`] with as many steps as [`Regex::linear_steps`] tells has
    /// enough of them, whatever the text is. A search without a bound goes no other way for it.
    ///
    /// A pattern is linear that has no back reference; whose repetitions have no greatest number, or 1, and a least number of 0 or 1,
    /// or are of one character and have numbers up to 256; in which nothing that may be empty is repeated; and whose lookarounds are
    /// negated, or have no groups or no quantifiers inside, or are visited at most once: inside of nothing that is repeated, in a
    /// pattern that begins with a `^` without `m`. Where more than a character is repeated in such a one, it holds no other lookaround
    /// with groups. Its program has at most 65,536 instructions. Where memory for the tables is refused it isn't known to be. It is
    /// worked out once, when it is asked or a search is first bounded.
    ///
    /// ```
    /// use regress_proved::Regex;
    ///
    /// assert!(Regex::new("(a|ab)*c")?.is_linear());
    /// assert!(!Regex::new(r"(a)\1")?.is_linear());
    /// # Ok::<(), regress_proved::Error>(())
    /// ```
    pub fn is_linear(&self) -> bool {
        self.pool.is_linear()
    }

    /// How many steps are enough for each search in a text of so many bytes or 16-bit units, or of fewer: with so many or more no call of
    /// [`Regex::within`] errs with `TooManySteps` there. `None` where the pattern isn't known to be linear, and where the table of such a
    /// text would take more than 64 MB, a bit for each instruction at each offset, or more than 8,388,608 offsets would be kept while it is
    /// made, one for each instruction inside of an atomic group at each offset.
    ///
    /// ```
    /// use regress_proved::{Regex, SearchError};
    ///
    /// let nested = Regex::new(r"^(\w|\w\w)*!$").unwrap();
    /// let text = "a".repeat(40) + "?!";
    /// let steps = nested.linear_steps(text.len()).unwrap_or(1_000_000);
    /// assert!(!nested.within(steps).is_match(&text)?);
    /// # Ok::<(), SearchError>(())
    /// ```
    pub fn linear_steps(&self, length: usize) -> Option<usize> {
        self.pool.linear_steps(length)
    }

    /// The first match in a text.
    pub fn find(&self, text: &str) -> Option<Match> {
        self.find_iter(text).next()
    }

    /// The matches in a text, one behind another.
    ///
    /// ```
    /// let words = regress_proved::Regex::new(r"\w+").unwrap();
    /// let ends: Vec<usize> = words.find_iter("a bc def").map(|found| found.end()).collect();
    /// assert_eq!(ends, [1, 4, 8]);
    /// ```
    pub fn find_iter<'r, 't>(&'r self, text: &'t str) -> Matches<'r, 't> {
        self.find_from(text, 0)
    }

    /// The matches from the byte `start` on. What lies before it is still seen by lookbehind, `^` and `\b`. Past the end of the
    /// text nothing is found.
    ///
    /// ```
    /// let behind = regress_proved::Regex::new("(?<=a)b").unwrap();
    /// assert_eq!(behind.find_from("abab", 3).next().unwrap().range(), 3..4);
    /// ```
    ///
    /// # Panics
    ///
    /// Where `start` lies inside of a character.
    pub fn find_from<'r, 't>(&'r self, text: &'t str, start: usize) -> Matches<'r, 't> {
        check_start(text, start);
        self.matches(Text::Utf8(text), start)
    }

    /// The first match in a text of ASCII. In any other text it is what [`Regex::find`] finds.
    pub fn find_ascii(&self, text: &str) -> Option<Match> {
        self.find_iter_ascii(text).next()
    }

    /// The matches in a text of ASCII. In any other text they are those of [`Regex::find_iter`].
    pub fn find_iter_ascii<'r, 't>(&'r self, text: &'t str) -> AsciiMatches<'r, 't> {
        self.find_from_ascii(text, 0)
    }

    /// The matches in a text of ASCII from the byte `start` on, as [`Regex::find_from`] tells them.
    pub fn find_from_ascii<'r, 't>(&'r self, text: &'t str, start: usize) -> AsciiMatches<'r, 't> {
        check_start(text, start);
        self.matches(Text::ascii(text), start)
    }

    /// The matches in a text of UTF-16 from the unit `start` on; ranges are in units. A high unit before a low one is one character.
    ///
    /// # Panics
    ///
    /// Where `start` lies between two such units.
    pub fn find_from_utf16<'r, 't>(&'r self, text: &'t [u16], start: usize) -> Matches<'r, 't> {
        check_unit_start(text, start);
        self.matches(Text::Utf16(text), start)
    }

    /// The matches in a text of 16-bit units that are one character each, from the unit `start` on; ranges are in units.
    ///
    /// ```
    /// let regex = regress_proved::Regex::new(".").unwrap();
    /// let units: Vec<u16> = "😀".encode_utf16().collect();
    /// assert_eq!(regex.find_from_utf16(&units, 0).count(), 1);
    /// assert_eq!(regex.find_from_ucs2(&units, 0).count(), 2);
    /// ```
    pub fn find_from_ucs2<'r, 't>(&'r self, text: &'t [u16], start: usize) -> Matches<'r, 't> {
        self.matches(Text::Ucs2(text), start)
    }

    /// A text with its first match replaced. In the replacement `$0` stands for the match, `$1` for the text of a group, `${name}`
    /// for that of a named one, and `$$` for a `$`.
    ///
    /// ```
    /// let dates = regress_proved::Regex::new(r"(?<year>\d{4})-(\d\d)").unwrap();
    /// assert_eq!(dates.replace("2025-06, 2026-07", "$2/${year}"), "06/2025, 2026-07");
    /// ```
    pub fn replace(&self, text: &str, replacement: &str) -> String {
        let first = self.find_iter(text).take(1);
        replaced(text, first, |found, made| expand(replacement, found, text, made))
    }

    /// A text with each match replaced, as [`Regex::replace`] does.
    pub fn replace_all(&self, text: &str, replacement: &str) -> String {
        replaced(text, self.find_iter(text), |found, made| expand(replacement, found, text, made))
    }

    /// A text with its first match replaced by what a closure makes of it.
    pub fn replace_with<F>(&self, text: &str, replacement: F) -> String
    where
        F: FnOnce(&Match) -> String,
    {
        let mut replacement = Some(replacement);
        let first = self.find_iter(text).take(1);
        replaced(text, first, |found, made| made.extend(replacement.take().map(|make| make(found))))
    }

    /// A text with each match replaced by what a closure makes of it.
    ///
    /// ```
    /// let numbers = regress_proved::Regex::new(r"\d+").unwrap();
    /// let text = "5 and 10";
    /// let doubled = numbers.replace_all_with(text, |found| (2 * found.as_str(text).parse::<u32>().unwrap()).to_string());
    /// assert_eq!(doubled, "10 and 20");
    /// ```
    pub fn replace_all_with<F>(&self, text: &str, replacement: F) -> String
    where
        F: Fn(&Match) -> String,
    {
        replaced(text, self.find_iter(text), |found, made| made.push_str(&replacement(found)))
    }
}

/// Panics where a start lies inside of a character.
pub(crate) fn check_start(text: &str, start: usize) {
    assert!(start >= text.len() || text.is_char_boundary(start), "the start lies inside of a character");
}

/// Panics where a start lies between the two units of a character.
pub(crate) fn check_unit_start(text: &[u16], start: usize) {
    let is_inside = start > 0 && start < text.len() && is_high(text[start - 1]) && is_low(text[start]);
    assert!(!is_inside, "the start lies inside of a character");
}

fn is_high(unit: u16) -> bool {
    (0xD800..0xDC00).contains(&unit)
}

fn is_low(unit: u16) -> bool {
    (0xDC00..0xE000).contains(&unit)
}

/// Code points, among which are halves of pairs, as 16-bit units. Without Unicode mode each unit of a pattern is a character, so that
/// none of two units may stand there.
fn units_of(points: impl Iterator<Item = u32>, flags: Flags) -> Result<Vec<u16>, Error> {
    let mut units = Vec::new();
    for (place, point) in points.enumerate() {
        match (u16::try_from(point), char::from_u32(point)) {
            (Ok(unit), _) => units.push(unit),
            (_, Some(pair)) if flags.is_unicode() => units.extend(pair.encode_utf16(&mut [0; 2]).iter()),
            (_, Some(_)) => return Err(Error::at("A half of a pair beside a character of two units", place)),
            (_, None) => return Err(Error::at("A number past the last code point", place)),
        }
    }
    Ok(units)
}

/// A pattern that matches just this text, whatever the flags but `i`.
///
/// ```
/// assert_eq!(regress_proved::escape("1+1 (two)"), r"1\+1 \(two\)");
/// ```
pub fn escape(text: &str) -> String {
    escaped(text)
}
