//! The flags of a pattern.
use std::fmt;

/// The flags of a pattern. By default none is set.
///
/// ```
/// use regress_proved::Flags;
///
/// let flags = Flags::from("iu");
/// assert!(flags.icase && flags.unicode && !flags.multiline);
/// assert_eq!(flags.to_string(), "iu");
/// ```
#[derive(Clone, Copy, Debug, Default)]
pub struct Flags {
    /// `i`: case is ignored.
    pub icase: bool,
    /// `m`: `^` and `$` also match where a line begins and ends.
    pub multiline: bool,
    /// `s`: `.` also matches what ends a line.
    pub dot_all: bool,
    /// Taken, as by the crate `regress`, and changes nothing: a program is always optimised.
    pub no_opt: bool,
    /// `u`: the pattern is read in Unicode mode.
    pub unicode: bool,
    /// `v`: the same, with the set notation of classes. It goes before `unicode`.
    pub unicode_sets: bool,
}

impl Flags {
    /// The flags that are named by letters, given as code points. Any other code point is skipped.
    pub fn new<T: Iterator<Item = u32>>(chars: T) -> Self {
        let mut flags = Flags::default();
        for letter in chars.filter_map(char::from_u32) {
            let flag = match letter {
                'i' => &mut flags.icase,
                'm' => &mut flags.multiline,
                's' => &mut flags.dot_all,
                'u' => &mut flags.unicode,
                'v' => &mut flags.unicode_sets,
                _ => continue,
            };
            *flag = true;
        }
        flags
    }

    /// The letters that the library takes, which are never both `u` and `v`.
    pub(crate) fn letters(self) -> String {
        Flags { unicode: self.unicode && !self.unicode_sets, ..self }.to_string()
    }

    pub(crate) fn is_unicode(self) -> bool {
        self.unicode || self.unicode_sets
    }
}

impl From<&str> for Flags {
    fn from(letters: &str) -> Self {
        Flags::new(letters.chars().map(u32::from))
    }
}

/// The letters, in the order `m`, `i`, `s`, `u`, `v`.
impl fmt::Display for Flags {
    fn fmt(&self, f: &mut fmt::Formatter<'_>) -> fmt::Result {
        let letters =
            [(self.multiline, 'm'), (self.icase, 'i'), (self.dot_all, 's'), (self.unicode, 'u'), (self.unicode_sets, 'v')];
        letters.iter().filter(|(is_set, _)| *is_set).try_for_each(|(_, letter)| write!(f, "{letter}"))
    }
}
