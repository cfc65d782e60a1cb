//! Each name of the crate `regress` 0.12, used as a program of it does.
#![allow(clippy::single_range_in_vec_init)]
use regress_proved::{escape, AsciiMatches, Error, Flags, Groups, Match, Matches, NamedGroups, Range, Regex, RegexBuilder};
use std::str::FromStr;

fn spans(matches: impl Iterator<Item = Match>) -> Vec<Range> {
    matches.map(|found| found.range()).collect()
}

#[test]
fn patterns_are_made_with_flags() -> Result<(), Error> {
    assert!(Regex::new("A")?.find("a").is_none());
    assert!(Regex::with_flags("A", "i")?.find("a").is_some());
    assert!(Regex::with_flags("A", Flags { icase: true, ..Flags::default() })?.find("a").is_some());
    assert!(Regex::from_unicode("A".chars().map(u32::from), "i")?.find("a").is_some());
    assert!(Regex::from_str("a")?.find("a").is_some());
    assert!("a".parse::<Regex>()?.clone().find("a").is_some());
    let optimised = Flags { no_opt: true, unicode: true, ..Flags::from("v") };
    assert_eq!(Regex::with_flags(r"[[a-z]--[aeiou]]+", optimised)?.find("eat").unwrap().range(), 2..3);
    Ok(())
}

#[test]
fn flags_are_read_and_written() {
    let flags = Flags::new("vsgmiu?".chars().map(u32::from));
    assert!(flags.icase && flags.multiline && flags.dot_all && flags.unicode && flags.unicode_sets && !flags.no_opt);
    assert_eq!(flags.to_string(), "misuv");
    assert_eq!(Flags::from("").to_string(), "");
    assert_eq!(Flags::new([0x110000, 0xD800].into_iter()).to_string(), "");
}

#[test]
fn patterns_are_refused() {
    let refused = Regex::new("a(b").unwrap_err();
    assert_eq!((refused.text.as_str(), refused.to_string()), ("Unbalanced parenthesis", refused.text.clone()));
    let boxed: Box<dyn std::error::Error> = Box::new(refused.clone());
    assert_eq!(boxed.to_string(), refused.text);
    assert_eq!(refused, Regex::new("a(b").unwrap_err());
    assert_eq!(Regex::new(&"(".repeat(300)).unwrap_err().place(), None);
    let in_bytes = Regex::with_flags(r"aé😀\p{Nothing}", "u").unwrap_err().place().unwrap();
    let points = r"aé😀\p{Nothing}".chars().map(u32::from);
    let in_points = Regex::from_unicode(points, "u").unwrap_err().place().unwrap();
    let with_a_half = [0xD800].into_iter().chain(r"😀\p{Nothing}".chars().map(u32::from));
    let behind_a_half = Regex::from_unicode(with_a_half.collect::<Vec<_>>().into_iter(), "u").unwrap_err().place().unwrap();
    assert_eq!((in_bytes - in_points, in_points - behind_a_half), (4, 1));
}

#[test]
fn patterns_are_limited() {
    let mut builder = RegexBuilder::new("AB");
    assert!(builder.flags("i").size_limit(10).build().unwrap().find("ab").is_some());
    let refused = builder.size_limit(9).build().unwrap_err();
    assert_eq!((refused.text.as_str(), refused.place()), ("pattern costs more than its limit", None));
    assert!(RegexBuilder::new("AB").size_limit(usize::MAX).build().is_ok());
    assert_eq!(RegexBuilder::new("a(b").size_limit(0).build().unwrap_err().place(), Some(3));
    // 800 groups of one name, and 800 times a reference to all of them, which may take 1,280,000 instructions.
    let many = format!("(?:{}){}", ["(?<n>)"; 800].join("|"), r"\k<n>".repeat(800));
    assert_eq!(Regex::new(&many).unwrap_err(), refused);
    assert_eq!(Regex::from_unicode(many.chars().map(u32::from), "").unwrap_err(), refused);
    assert!(RegexBuilder::new(&many).size_limit(2_000_000).build().is_ok());
}

#[test]
fn patterns_of_code_points_may_have_halves_of_pairs() {
    let half = Regex::from_unicode([0xD83D].into_iter(), "").unwrap();
    assert_eq!(spans(half.find_from_utf16(&[0x61, 0xD83D, 0x62], 0)), [1..2]);
    assert_eq!(spans(half.find_from_ucs2(&[0xD83D, 0xDE00], 0)), [0..1]);
    assert_eq!(Regex::from_unicode([0xD83D, 0x1F600].into_iter(), "").unwrap_err().place(), Some(1));
    assert!(Regex::from_unicode([0xD83D, 0x1F600].into_iter(), "u").is_ok());
    assert_eq!(Regex::from_unicode([0x61, 0x110000].into_iter(), "u").unwrap_err().place(), Some(1));
}

#[test]
fn matches_are_found_one_behind_another() {
    let regex = Regex::new("a|").unwrap();
    assert_eq!(spans(regex.find_iter("ba")), [0..0, 1..2, 2..2]);
    assert_eq!(spans(regex.find_from("baa", 2)), [2..3, 3..3]);
    assert_eq!(spans(regex.find_from("ba", 3)), []);
    assert_eq!(spans(regex.find_from("ba", usize::MAX)), []);
    assert_eq!(spans(regex.find_iter("😀")), [0..0, 4..4]);
    let many = Regex::new("(a)(x)?").unwrap();
    let text = "a".repeat(1000);
    let found: Vec<Match> = many.find_iter(&text).collect();
    assert_eq!(found.len(), 1000);
    assert!(found.iter().enumerate().all(|(k, each)| each.range == (k..k + 1) && each.captures == [Some(k..k + 1), None]));
    let mut matches: Matches = regex.find_iter("");
    assert_eq!(matches.next().map(|found| found.range()), Some(0..0));
    assert!(matches.next().is_none() && matches.next().is_none());
}

#[test]
fn texts_of_other_forms() {
    let regex = Regex::with_flags("é|b", "i").unwrap();
    assert_eq!(regex.find_ascii("aB").unwrap().range(), 1..2);
    let matches: AsciiMatches = regex.find_iter_ascii("ab b");
    assert_eq!(spans(matches), [1..2, 3..4]);
    assert_eq!(spans(regex.find_from_ascii("ab b", 2)), [3..4]);
    assert_eq!(spans(regex.find_iter_ascii("aÉb")), [1..3, 3..4], "no ASCII: as it is");
    let units: Vec<u16> = "😀éb".encode_utf16().collect();
    assert_eq!(spans(regex.find_from_utf16(&units, 0)), [2..3, 3..4]);
    assert_eq!(spans(regex.find_from_utf16(&units, 3)), [3..4]);
    assert_eq!(spans(regex.find_from_ucs2(&units, 1)), [2..3, 3..4]);
    assert_eq!(spans(regex.find_from_utf16(&[], 0)), []);
}

#[test]
#[should_panic(expected = "inside of a character")]
fn a_start_inside_of_a_character() {
    let _ = Regex::new("a").unwrap().find_from("é", 1);
}

#[test]
#[should_panic(expected = "inside of a character")]
fn a_start_inside_of_a_pair() {
    let units: Vec<u16> = "😀".encode_utf16().collect();
    let _ = Regex::new("a").unwrap().find_from_utf16(&units, 1);
}

#[test]
fn groups_of_matches() {
    let text = "on 2025-06-01";
    let found = Regex::new(r"(?<year>\d{4})-(\d\d)-(?<day>\d\d)(x)?").unwrap().find(text).unwrap();
    assert_eq!((found.start(), found.end(), found.as_str(text)), (3, 13, "2025-06-01"));
    assert_eq!(found.captures, [Some(3..7), Some(8..10), Some(11..13), None]);
    let mut groups: Groups = found.groups();
    assert_eq!((groups.len(), groups.next(), groups.len()), (5, Some(Some(3..13)), 4));
    assert_eq!(groups.clone().collect::<Vec<_>>(), found.captures);
    let mut named: NamedGroups = found.named_groups();
    assert_eq!((named.len(), named.next(), named.len()), (2, Some(("year", Some(3..7))), 1));
    assert_eq!(named.clone().collect::<Vec<_>>(), [("day", Some(11..13))]);
    assert_eq!((found.named_group("day"), found.named_group("month"), found.named_group("")), (Some(11..13), None, None));
    assert_eq!((found.group(0), found.group(4), found.group(5)), (Some(3..13), None, None));
    assert_eq!(found.clone().range(), 3..13);
}

#[test]
fn a_name_of_two_groups() {
    let found = Regex::new("(?<a>x)|(?<a>y)").unwrap().find("y").unwrap();
    assert_eq!(found.named_groups().collect::<Vec<_>>(), [("a", Some(0..1))]);
    assert_eq!(found.named_groups().len(), 1);
    assert_eq!(found.named_group("a"), None, "the first by number");
}

#[test]
fn texts_are_replaced() {
    let regex = Regex::new(r"(?<first>\w)(\w*)").unwrap();
    assert_eq!(regex.replace("ab cd", "[$2$1${first}$0$$]"), "[baaab$] cd");
    assert_eq!(regex.replace_all("ab cd", "$2$1"), "ba dc");
    assert_eq!(regex.replace_all("ab", "$3|$65536|$655360|$999990|${x}|$x|$"), "||0|0||$x|$");
    assert_eq!(regex.replace("ab", "${first"), "${first");
    assert_eq!(regex.replace("..", "x"), "..");
    assert_eq!(regex.replace_with("ab cd", |found| format!("<{}>", found.as_str("ab cd"))), "<ab> cd");
    assert_eq!(regex.replace_with("..", |_| unreachable!()), "..");
    assert_eq!(regex.replace_all_with("ab cd", |found| found.end().to_string()), "2 5");
}

#[test]
fn texts_are_escaped() {
    let text = r"a.b*(c)\d{2}^$|[x]-é/";
    for flags in ["", "u", "v", "s"] {
        assert_eq!(Regex::with_flags(&escape(text), flags).unwrap().find(text).unwrap().as_str(text), text);
    }
}
