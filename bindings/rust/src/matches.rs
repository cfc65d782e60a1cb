//! Iterators over the matches in a text.
use crate::error::SearchError;
use crate::found::Match;
use crate::handle::Text;
use crate::pool::Taken;
use crate::sys::{TextRange, UNSET};
use std::fmt;
use std::iter::FusedIterator;
use std::sync::Arc;

/// How many matches are asked for at once, at most, and how many ranges that may take.
const MATCHES: usize = 1 << 16;
const RANGES: usize = 1 << 18;

/// The matches in a text, one behind another. It borrows the regex and the text:
///
/// ```compile_fail
/// let regex = regress_proved::Regex::new("a").unwrap();
/// let matches = {
///     let text = String::from("aa");
///     regex.find_iter(&text) // the text would go before the iterator
/// };
/// matches.count();
/// ```
///
/// ```compile_fail
/// let matches = {
///     let regex = regress_proved::Regex::new("a").unwrap();
///     regex.find_iter("aa") // and so would the regex
/// };
/// matches.count();
/// ```
///
/// ```compile_fail
/// let regex = regress_proved::Regex::new("a").unwrap();
/// let mut text = String::from("aa");
/// let matches = regex.find_iter(&text);
/// text.push('a'); // the text stays as it is while it is searched
/// matches.count();
/// ```
pub struct Matches<'r, 't> {
    search: Taken<'r>,
    text: Text<'t>,
    names: Arc<[Box<str>]>,
    width: usize,
    /// Where the search goes on.
    start: usize,
    /// Ranges of matches that were found and not handed out, the next one's last.
    found: Vec<TextRange>,
    asked: usize,
    /// Why the search ended early, if it did and that was not told.
    failed: Option<SearchError>,
}

/// The same, over ASCII.
pub type AsciiMatches<'r, 't> = Matches<'r, 't>;

impl<'r, 't> Matches<'r, 't> {
    pub(crate) fn new(search: Taken<'r>, text: Text<'t>, names: &Arc<[Box<str>]>, width: usize, start: usize) -> Self {
        Matches { search, text, names: names.clone(), width, start, found: Vec::new(), asked: 1, failed: None }
    }

    /// Finds more matches: one at first, and then twice as many each time, so that few calls find them all. Each call has to remember anew
    /// from where a pattern of many ways fails.
    fn find_more(&mut self) {
        let unset = TextRange { start: UNSET, end: UNSET };
        let mut ranges = vec![unset; self.asked * self.width];
        let (count, failed) = self.search.find_many(self.text, &mut self.start, &mut ranges, self.width);
        if failed.is_some() {
            self.failed = failed;
            self.start = UNSET;
        }
        ranges.truncate(count * self.width);
        ranges.reverse();
        self.found = ranges;
        self.asked = (2 * self.asked).min(MATCHES).min((RANGES / self.width).max(1));
    }

    /// The next match, or why the search for it ended early; nothing behind that.
    fn step(&mut self) -> Option<Result<Match, SearchError>> {
        if self.found.is_empty() && self.start != UNSET {
            self.find_more();
        }
        let Some(range) = self.found.pop().and_then(told) else {
            return self.failed.take().map(Err);
        };
        let groups = self.found.split_off(self.found.len() + 1 - self.width);
        let captures = groups.into_iter().rev().map(told).collect();
        Some(Ok(Match { range, captures, names: self.names.clone() }))
    }
}

/// A range as it is handed out.
fn told(range: TextRange) -> Option<crate::Range> {
    (range.start != UNSET).then_some(range.start..range.end)
}

impl Iterator for Matches<'_, '_> {
    type Item = Match;

    fn next(&mut self) -> Option<Match> {
        self.step().map(|found| found.unwrap_or_else(|failed| panic!("{failed}")))
    }
}

impl FusedIterator for Matches<'_, '_> {}

impl fmt::Debug for Matches<'_, '_> {
    fn fmt(&self, f: &mut fmt::Formatter<'_>) -> fmt::Result {
        f.debug_struct("Matches").field("text", &self.text).field("start", &self.start).finish_non_exhaustive()
    }
}

/// The matches in a text, one behind another, each found in so many steps or not at all: from [`Bounded`](crate::Bounded). After an
/// error it has ended.
#[derive(Debug)]
pub struct BoundedMatches<'r, 't>(pub(crate) Matches<'r, 't>);

impl Iterator for BoundedMatches<'_, '_> {
    type Item = Result<Match, SearchError>;

    fn next(&mut self) -> Option<Result<Match, SearchError>> {
        self.0.step()
    }
}

impl FusedIterator for BoundedMatches<'_, '_> {}
