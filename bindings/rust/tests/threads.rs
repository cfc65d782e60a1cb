//! A regex that threads share, and iterators over it at once.
use regress_proved::{Match, Matches, Regex};
use std::thread;

fn is_send<T: Send>() {}
fn is_sync<T: Sync>() {}

#[test]
fn what_goes_from_thread_to_thread() {
    is_send::<Regex>();
    is_sync::<Regex>();
    is_send::<Match>();
    is_send::<Matches>();
}

#[test]
fn threads_share_a_regex() {
    let regex = Regex::new(r"(\d{4})-(\d\d)").unwrap();
    let text = "on 2025-06-01, and on 2026-11-27";
    let work =
        || (0..2000).map(|_| regex.find_iter(text).filter(|found| found.group(1).unwrap().len() == 4).count()).sum::<usize>();
    let counts: Vec<usize> = thread::scope(|scope| {
        let running: Vec<_> = (0..4).map(|_| scope.spawn(work)).collect();
        running.into_iter().map(|each| each.join().unwrap()).collect()
    });
    assert_eq!(counts, [4000; 4]);
    assert!(format!("{regex:?}").contains("idle"));
}

#[test]
fn threads_compile_at_once() {
    let compile =
        |letter: char| Regex::with_flags(&format!(r"\p{{Lu}}{letter}"), "u").unwrap().find("Éa").map(|found| found.range());
    let found: Vec<_> = thread::scope(|scope| {
        let running: Vec<_> = "abab".chars().map(|letter| scope.spawn(move || compile(letter))).collect();
        running.into_iter().map(|each| each.join().unwrap()).collect()
    });
    assert_eq!(found, [Some(0..3), None, Some(0..3), None]);
}

#[test]
fn iterators_of_one_regex_at_once() {
    let regex = Regex::new("a").unwrap();
    let pairs = regex.find_iter("aaaa").zip(regex.find_iter("baba")).map(|(one, other)| (one.start(), other.start()));
    assert_eq!(pairs.collect::<Vec<_>>(), [(0, 1), (1, 3)]);
    let nested: usize = regex.find_iter("aaa").map(|found| regex.find_from("aaa", found.end()).count()).sum();
    assert_eq!(nested, 3);
}

#[test]
fn an_iterator_over_many_ways_ends_soon() {
    // From each letter a way goes to the end, so that it has to be remembered that these fail.
    let text = "a".repeat(30_000);
    assert_eq!(Regex::new("a.*b|a").unwrap().find_iter(&text).count(), 30_000);
}

#[test]
fn an_iterator_moves_to_another_thread() {
    let regex = Regex::new("a").unwrap();
    let mut matches = regex.find_iter("aaaa");
    assert!(matches.next().is_some());
    let left = thread::scope(|scope| scope.spawn(move || matches.count()).join().unwrap());
    assert_eq!(left, 3);
}

#[test]
fn a_copy_outlives_the_first() {
    let first = Regex::new("(?<x>a)").unwrap();
    let copy = first.clone();
    drop(first);
    assert_eq!(copy.find("ba").unwrap().named_group("x"), Some(1..2));
}
