//! Matches, as they are handed out.
use std::iter::FusedIterator;
use std::ops;
use std::sync::Arc;

/// Where a match or a group lies in a text.
pub type Range = ops::Range<usize>;

/// A match: where it lies, and where its groups do.
#[derive(Clone, Debug)]
pub struct Match {
    /// Where the whole match lies. It is empty where the pattern matched the empty text.
    pub range: Range,
    /// Where each capturing group lies, `None` for one that took no part. Group 1 stands at index 0.
    pub captures: Vec<Option<Range>>,
    /// The name of each group, empty where it has none.
    pub(crate) names: Arc<[Box<str>]>,
}

impl Match {
    /// Where a group lies, by its number: 0 is the whole match.
    ///
    /// ```
    /// let found = regress_proved::Regex::new("a(b)?(c)").unwrap().find("ac").unwrap();
    /// assert_eq!((found.group(0), found.group(1), found.group(2), found.group(3)), (Some(0..2), None, Some(1..2), None));
    /// ```
    pub fn group(&self, idx: usize) -> Option<Range> {
        match idx.checked_sub(1) {
            None => Some(self.range()),
            Some(place) => self.captures.get(place).cloned().flatten(),
        }
    }

    /// Where the group of a name lies; of several groups with that name, the first by number.
    pub fn named_group(&self, name: &str) -> Option<Range> {
        let place = self.names.iter().position(|known| !name.is_empty() && **known == *name)?;
        self.group(place + 1)
    }

    /// Each name, in the order of the groups, with where its group lies. A name of several groups comes once, with the group of them
    /// that took part.
    ///
    /// ```
    /// let dates = regress_proved::Regex::new(r"(?<y>\d{4})-(?<m>\d\d)|(?<m>\d\d)/(?<y>\d{4})").unwrap();
    /// let found = dates.find("06/2025").unwrap();
    /// assert_eq!(found.named_groups().collect::<Vec<_>>(), [("y", Some(3..7)), ("m", Some(0..2))]);
    /// ```
    pub fn named_groups(&self) -> NamedGroups<'_> {
        NamedGroups { found: self, place: 0 }
    }

    /// The whole match first, and then each capturing group.
    pub fn groups(&self) -> Groups<'_> {
        Groups { found: self, number: 0 }
    }

    /// Where the whole match lies.
    pub fn range(&self) -> Range {
        self.range.clone()
    }

    /// Where the match begins.
    pub fn start(&self) -> usize {
        self.range.start
    }

    /// Where the match ends.
    pub fn end(&self) -> usize {
        self.range.end
    }

    /// The text of the match, in the text that was searched.
    ///
    /// ```
    /// let found = regress_proved::Regex::new(r"\d+").unwrap().find("the 25th").unwrap();
    /// assert_eq!(found.as_str("the 25th"), "25");
    /// ```
    pub fn as_str<'t>(&self, text: &'t str) -> &'t str {
        &text[self.range()]
    }
}

/// The groups of a match, from the whole match on.
#[derive(Clone)]
pub struct Groups<'m> {
    found: &'m Match,
    number: usize,
}

impl Iterator for Groups<'_> {
    type Item = Option<Range>;

    fn next(&mut self) -> Option<Option<Range>> {
        if self.number > self.found.captures.len() {
            return None;
        }
        self.number += 1;
        Some(self.found.group(self.number - 1))
    }

    fn size_hint(&self) -> (usize, Option<usize>) {
        let left = self.found.captures.len() + 1 - self.number;
        (left, Some(left))
    }
}

impl ExactSizeIterator for Groups<'_> {}
impl FusedIterator for Groups<'_> {}

/// The names of a match, each once.
#[derive(Clone)]
pub struct NamedGroups<'m> {
    found: &'m Match,
    place: usize,
}

impl NamedGroups<'_> {
    /// Whether a name stands at a place that is not there before.
    fn begins_at(&self, place: usize) -> bool {
        let names = &self.found.names;
        !names[place].is_empty() && !names[..place].contains(&names[place])
    }
}

impl<'m> Iterator for NamedGroups<'m> {
    type Item = (&'m str, Option<Range>);

    fn next(&mut self) -> Option<Self::Item> {
        let names = &self.found.names;
        let place = (self.place..names.len()).find(|&place| self.begins_at(place))?;
        self.place = place + 1;
        let mut of_name = (place..names.len()).filter(|&other| names[other] == names[place]);
        let range = of_name.find_map(|other| self.found.group(other + 1));
        Some((&names[place], range))
    }

    fn size_hint(&self) -> (usize, Option<usize>) {
        let left = (self.place..self.found.names.len()).filter(|&place| self.begins_at(place)).count();
        (left, Some(left))
    }
}

impl ExactSizeIterator for NamedGroups<'_> {}
impl FusedIterator for NamedGroups<'_> {}
