//! Regular expressions of ECMAScript (ECMA-262, 16th edition), by an engine that is proved, with the names of the crate `regress` 0.12:
//! a program that uses that crate changes one line of its `Cargo.toml`.
//!
//! ```toml
//! regress = { package = "regress-proved", path = "../regress/bindings/rust" }
//! ```
//!
//! ```
//! use regress_proved::Regex;
//!
//! let dates = Regex::with_flags(r"(?<year>\d{4})-(\d\d)", "u")?;
//! let text = "on 2025-06-01";
//! let found = dates.find(text).expect("there is a date");
//! assert_eq!(&text[found.named_group("year").unwrap()], "2025");
//! # Ok::<(), regress_proved::Error>(())
//! ```
//!
//! A [`Regex`] may be shared by threads: it keeps a pool of searches behind a lock, which is held only while one is taken or given
//! back. Offsets are in bytes, or in 16-bit units where the text is one of units. Where a call of the library is refused memory, the
//! call here panics, but for those of a [`Bounded`], which err.
//!
//! A service that takes patterns or texts of strangers compiles by [`RegexBuilder`], which bounds what a pattern may become, and
//! searches by [`Regex::within`], which bounds how many steps a search may take.
#![warn(missing_docs)]

mod bounded;
mod builder;
mod error;
mod flags;
mod found;
mod handle;
mod matches;
mod pool;
mod regex;
mod replacing;
mod sys;

pub use bounded::Bounded;
pub use builder::RegexBuilder;
pub use error::{Error, SearchError};
pub use flags::Flags;
pub use found::{Groups, Match, NamedGroups, Range};
pub use matches::{AsciiMatches, BoundedMatches, Matches};
pub use regex::{escape, Regex};
