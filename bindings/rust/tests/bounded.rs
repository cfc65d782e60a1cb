//! Searches that may take so many steps.
use regress_proved::{Bounded, BoundedMatches, Range, Regex, SearchError};

/// A pattern that takes a step or more for each letter, and a text with a short match and a long one.
const PATTERN: &str = "(?:(a)|b)*c";
const TEXT: &str = "bc abababababababababc";

/// The fewest steps with which a call answers.
fn least<T>(call: impl Fn(usize) -> Result<T, SearchError>) -> usize {
    (0..10_000).find(|&steps| call(steps).is_ok()).expect("it ends")
}

/// The ranges of matches, and why there are no more, where that is an error.
fn told(matches: BoundedMatches) -> (Vec<Range>, Option<SearchError>) {
    let (mut ranges, mut error) = (Vec::new(), None);
    for found in matches {
        assert!(error.is_none(), "nothing comes behind an error");
        match found {
            Ok(found) => ranges.push(found.range()),
            Err(failed) => error = Some(failed),
        }
    }
    (ranges, error)
}

#[test]
fn a_search_answers_the_same_or_errs() {
    let regex = Regex::new(PATTERN).unwrap();
    let (first, second) = (
        least(|steps| regex.within(steps).find(TEXT)),
        least(|steps| regex.within(steps).find_from(TEXT, 2).next().transpose()),
    );
    assert!(0 < first && first < second);
    for steps in 0..2 * second {
        let bounded: Bounded = regex.within(steps);
        let found = bounded.find(TEXT).map(|found| found.map(|found| (found.range(), found.group(1))));
        assert_eq!(found, if steps < first { Err(SearchError::TooManySteps) } else { Ok(Some((0..2, None))) });
        assert_eq!(bounded.is_match(TEXT), found.map(|found| found.is_some()));
        assert_eq!(regex.find(TEXT).unwrap().range(), 0..2, "a search without a bound has none");
    }
    assert_eq!(regex.within(1000).is_match("ababab"), Ok(false));
}

#[test]
fn linear_patterns_are_told() {
    for pattern in ["(a|ab)*c", "a{3,9}b", "(?<!a)b", "(?=(a)b)a", "(?>a|bc)c", "", PATTERN] {
        assert!(Regex::new(pattern).unwrap().is_linear(), "{pattern}");
    }
    let other = Regex::new(r"(a)\1").unwrap();
    assert_eq!((other.is_linear(), other.linear_steps(10)), (false, None));
    let linear = Regex::new("(a|ab)*c").unwrap();
    let (ten, eleven) = (linear.linear_steps(10).unwrap(), linear.clone().linear_steps(11).unwrap());
    assert!(10 < ten && ten < eleven && eleven < 10_000);
    assert_eq!((linear.linear_steps(1 << 30), linear.linear_steps(usize::MAX)), (None, None));
}

#[test]
fn enough_steps_are_enough() {
    let linear = Regex::new("(a|ab)*c").unwrap();
    let text = "ab".repeat(2500);
    let steps = linear.linear_steps(text.len()).unwrap();
    assert_eq!(linear.within(steps).is_match(&text), Ok(false));
    assert_eq!(linear.within(steps).is_match(&text[1..]), Ok(false), "nor in a shorter text");
    assert_eq!(linear.within(steps / 2).is_match(&text), Err(SearchError::TooManySteps));
    let table_alone = Regex::new("(?:ab?)*c").unwrap();
    let fewest = table_alone.linear_steps(text.len()).unwrap();
    assert_eq!(table_alone.within(fewest).is_match(&text), Ok(false));
    assert_eq!(table_alone.within(fewest - 1).is_match(&text), Err(SearchError::TooManySteps));
    let units: Vec<u16> = text.encode_utf16().collect();
    assert_eq!(told(linear.within(steps).find_from_utf16(&units, 0)), (vec![], None));
    assert_eq!(told(linear.within(steps).find_from_ucs2(&units, 1)), (vec![], None));
    let ended = text + "c-c";
    let found = linear.within(linear.linear_steps(ended.len()).unwrap()).find_iter(&ended).map(Result::unwrap);
    assert_eq!(
        found.map(|found| (found.range(), found.group(1))).collect::<Vec<_>>(),
        [(0..5001, Some(4998..5000)), (5002..5003, None)]
    );
    let other = Regex::new(r"(?:(a)\1|a|ab)*c").unwrap();
    assert_eq!(other.within(steps).is_match(&"ab".repeat(2500)), Err(SearchError::TooManySteps));
}

#[test]
fn each_match_has_the_steps_anew() {
    let regex = Regex::new(PATTERN).unwrap();
    let second = least(|steps| regex.within(steps).find_from(TEXT, 2).next().transpose());
    assert_eq!(told(regex.within(second).find_iter(TEXT)), (vec![0..2, 3..22], None));
    assert_eq!(told(regex.within(second - 1).find_iter(TEXT)), (vec![0..2], Some(SearchError::TooManySteps)));
    assert_eq!(told(regex.within(second - 1).find_from(TEXT, 2)), (vec![], Some(SearchError::TooManySteps)));
    let many = TEXT.repeat(100);
    assert_eq!(told(regex.within(second).find_iter(&many)).0.len(), 200);
    let mut ended = regex.within(0).find_iter(TEXT);
    assert_eq!(ended.next().unwrap().unwrap_err(), SearchError::TooManySteps);
    assert!(ended.next().is_none() && ended.next().is_none());
}

#[test]
fn texts_of_other_forms_are_bounded() {
    let regex = Regex::with_flags("(?:é|(😀))*b", "u").unwrap();
    let units: Vec<u16> = "é😀é😀éb".encode_utf16().collect();
    for steps in [0, 3] {
        assert_eq!(told(regex.within(steps).find_from_utf16(&units, 0)), (vec![], Some(SearchError::TooManySteps)));
    }
    assert_eq!(told(regex.within(1000).find_from_utf16(&units, 1)), (vec![1..8], None));
    let halves = Regex::new("[^]*b").unwrap();
    assert_eq!(told(halves.within(0).find_from_ucs2(&units, 2)), (vec![], Some(SearchError::TooManySteps)));
    assert_eq!(told(halves.within(1000).find_from_ucs2(&units, 2)), (vec![2..8], None));
}

#[test]
#[should_panic(expected = "inside of a character")]
fn a_bounded_start_inside_of_a_character() {
    let _ = Regex::new("a").unwrap().within(9).find_from("é", 1);
}

#[test]
fn texts_are_replaced_within_a_bound() {
    let regex = Regex::new(PATTERN).unwrap();
    assert_eq!(regex.within(1000).replace(TEXT, "<$1>").as_deref(), Ok("<> abababababababababc"));
    assert_eq!(regex.within(1000).replace_all(TEXT, "<$0>").as_deref(), Ok("<bc> <abababababababababc>"));
    let first = least(|steps| regex.within(steps).find(TEXT));
    assert_eq!(regex.within(first).replace(TEXT, "").as_deref(), Ok(" abababababababababc"));
    assert_eq!(regex.within(first).replace_all(TEXT, ""), Err(SearchError::TooManySteps));
    assert_eq!(regex.within(1000).replace_all("bb", "x").as_deref(), Ok("bb"));
}

#[test]
fn errors_are_told() {
    let boxed: Box<dyn std::error::Error + Send + Sync> = Box::new(SearchError::TooManySteps);
    assert_eq!(boxed.to_string(), "too many steps");
    assert_eq!(SearchError::OutOfMemory.to_string(), "out of memory");
}
