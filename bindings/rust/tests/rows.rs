//! The rows of `crates/conformance` and of the four programs beside it, by all calls that search, replace and escape.
use regress_proved::{escape, Match, Matches, Regex};
use std::fs;
use std::path::PathBuf;

/// What is told for rows: how many answers are right, and which are wrong.
#[derive(Default)]
struct Report {
    right: usize,
    wrong: Vec<String>,
}

impl Report {
    fn tell(&mut self, place: &str, road: &str, told: &str, expected: &str) {
        if told == expected {
            self.right += 1;
        } else {
            self.wrong.push(format!("{place}, {road}: told {told}, expected {expected}"));
        }
    }
}

/// A text in code points, which may be halves of pairs.
struct Points(Vec<u32>);

impl Points {
    /// Reads the escapes of a field.
    fn of(field: &str) -> Points {
        let mut points = Vec::new();
        let mut rest = field.chars();
        while let Some(letter) = rest.next() {
            points.push(if letter == '\\' { escape_of(&mut rest) } else { letter.into() });
        }
        Points(points)
    }

    /// The text, where it holds no half of a pair.
    fn text(&self) -> Option<String> {
        self.0.iter().copied().map(char::from_u32).collect()
    }

    fn units(&self) -> Vec<u16> {
        let units_of = |&point: &u32| match char::from_u32(point) {
            Some(letter) => letter.encode_utf16(&mut [0; 2]).to_vec(),
            None => vec![point as u16],
        };
        self.0.iter().flat_map(units_of).collect()
    }

    fn has_pair(&self) -> bool {
        self.0.iter().any(|&point| point > 0xFFFF)
    }
}

/// The code point of an escape, behind its backslash.
fn escape_of(rest: &mut std::str::Chars<'_>) -> u32 {
    match rest.next().expect("an escape has a letter") {
        't' => 9,
        'n' => 10,
        'r' => 13,
        '\\' => '\\'.into(),
        'u' => {
            let (digits, length) = match rest.as_str().strip_prefix('{') {
                Some(inside) => (inside.split('}').next().unwrap(), inside.find('}').unwrap() + 2),
                None => (&rest.as_str()[..4], 4),
            };
            let point = u32::from_str_radix(digits, 16).expect("digits");
            *rest = rest.as_str()[length..].chars();
            point
        }
        other => panic!("no escape: {other}"),
    }
}

fn listed(matches: Matches<'_, '_>) -> String {
    let each = |found: Match| {
        let groups: Vec<String> =
            found.groups().map(|range| range.map_or("-".into(), |range| format!("{}..{}", range.start, range.end))).collect();
        groups.join(" ")
    };
    matches.map(each).collect::<Vec<_>>().join("|")
}

/// How many units stand before an offset in bytes.
fn units_before(text: &str, offset: usize) -> usize {
    let inside = text.get(..offset).map(|before| before.encode_utf16().count());
    inside.unwrap_or_else(|| text.encode_utf16().count() + offset - text.len())
}

/// A list of matches in bytes, in units.
fn in_units(text: &str, list: &str) -> String {
    let mut told = String::new();
    let mut rest = list;
    while let Some(at) = rest.find(|letter: char| letter.is_ascii_digit()) {
        let length = rest[at..].bytes().take_while(u8::is_ascii_digit).count();
        told.push_str(&rest[..at]);
        told.push_str(&units_before(text, rest[at..at + length].parse().unwrap()).to_string());
        rest = &rest[at + length..];
    }
    told + rest
}

fn compiled(pattern: &Points, flags: &str) -> Result<Regex, String> {
    let made = match pattern.text() {
        Some(text) => Regex::with_flags(&text, flags),
        None => Regex::from_unicode(pattern.0.iter().copied(), flags),
    };
    made.map_err(|refused| refused.text)
}

fn try_refusal(report: &mut Report, place: &str, pattern: &Points, flags: &str, expected: &str) {
    let told = compiled(pattern, flags).err().unwrap_or("a regex".into());
    let text = match expected.split_once(' ') {
        Some((_, text)) => text,
        None => &match expected {
            "!TooDeep" => "pattern is nested too deeply",
            "!TooManyGroups" => "too many capture groups",
            "!TooManyLoops" => "too many quantifiers",
            "!TooLarge" => "program is too large",
            _ => told.as_str(),
        }
        .to_string(),
    };
    let is_refused = told != "a regex";
    report.tell(place, "refusal", if is_refused { &told } else { "a regex" }, if is_refused { text } else { expected });
}

fn try_search(report: &mut Report, place: &str, regex: &Regex, pattern: &Points, text: &str, expected: &str, start: usize) {
    report.tell(place, "find_from", &listed(regex.find_from(text, start)), expected);
    report.tell(place, "find_from_ascii", &listed(regex.find_from_ascii(text, start)), expected);
    report.tell(place, "a copy", &listed(regex.clone().find_from(text, start)), expected);
    if start == 0 {
        let first = regex.find(text).map(|found| found.range());
        report.tell(
            place,
            "find",
            &format!("{first:?}"),
            &format!("{:?}", regex.find_iter(text).next().map(|found| found.range())),
        );
    }
    let units: Vec<u16> = text.encode_utf16().collect();
    let (expected, start) = (in_units(text, expected), units_before(text, start));
    report.tell(place, "find_from_utf16", &listed(regex.find_from_utf16(&units, start)), &expected);
    if !pattern.has_pair() && units.len() == text.chars().count() {
        report.tell(place, "find_from_ucs2", &listed(regex.find_from_ucs2(&units, start)), &expected);
    }
}

fn try_units(report: &mut Report, place: &str, regex: &Regex, fields: &[&str]) {
    let units = Points::of(fields[2]).units();
    let start: usize = fields[5].parse().unwrap_or(0);
    let is_inside =
        start > 0 && start < units.len() && char::decode_utf16(units[start - 1..=start].iter().copied()).count() == 1;
    if !is_inside {
        report.tell(place, "find_from_utf16", &listed(regex.find_from_utf16(&units, start)), fields[3]);
    }
    report.tell(place, "find_from_ucs2", &listed(regex.find_from_ucs2(&units, start)), fields[4]);
}

fn names_of(found: Option<Match>) -> String {
    let Some(found) = found else { return String::new() };
    let each = |(name, range): (&str, Option<regress_proved::Range>)| match range {
        Some(range) => format!("{name}={}..{}", range.start, range.end),
        None => format!("{name}=-"),
    };
    found.named_groups().map(each).collect::<Vec<_>>().join(" ")
}

/// Whether Unicode's tables, which this crate has, may answer a row otherwise than the small ones: it is refused for what these lack,
/// or case is ignored beyond ASCII.
fn is_of_small_tables(flags: &str, pattern: &Points, text: &Points, expected: &str) -> bool {
    let is_ascii = |points: &Points| points.0.iter().all(|&point| point < 0x80);
    let lacks_names = expected == "!Syntax Invalid group name" && !is_ascii(pattern);
    let folds = flags.contains('i') && !(is_ascii(pattern) && is_ascii(text));
    expected == "!Syntax Invalid property" || lacks_names || folds
}

fn try_row(report: &mut Report, place: &str, line: &str) {
    let mut fields: Vec<&str> = line.split('\t').collect();
    fields.resize(fields.len().max(8), "");
    let (work, flags) = fields[0].split_once(':').unwrap_or(("", fields[0]));
    let pattern = Points::of(fields[1]);
    let text = Points::of(fields[2]);
    if !place.starts_with("conformance_unicode") && is_of_small_tables(flags, &pattern, &text, fields[3]) {
        return;
    }
    let text = text.text();
    if work == "escape" {
        report.tell(place, work, &escape(&pattern.text().unwrap()), &text.unwrap());
        return;
    }
    if work.starts_with("split") || work == "whole" || work.ends_with("_as") {
        return;
    }
    if fields[3].starts_with('!') {
        return try_refusal(report, place, &pattern, flags, fields[3]);
    }
    let regex = match compiled(&pattern, flags) {
        Ok(regex) => regex,
        Err(refused) => return report.tell(place, "compile", &refused, ""),
    };
    match (work, text) {
        ("units", _) => try_units(report, place, &regex, &fields),
        ("", Some(text)) => try_search(report, place, &regex, &pattern, &text, fields[3], fields[4].parse().unwrap_or(0)),
        ("names", Some(text)) => report.tell(place, work, &names_of(regex.find(&text)), &Points::of(fields[3]).text().unwrap()),
        ("replace" | "replace_all", Some(text)) => {
            let with = Points::of(fields[3]).text().unwrap();
            let told = if work == "replace" { regex.replace(&text, &with) } else { regex.replace_all(&text, &with) };
            report.tell(place, work, &told, &Points::of(fields[4]).text().unwrap());
        }
        (other, _) => panic!("{place}: no work: {other}"),
    }
}

fn try_rows(name: &str) {
    let path = PathBuf::from(env!("CARGO_MANIFEST_DIR")).join("../../crates").join(name).join("stdin");
    let rows = fs::read_to_string(path).unwrap();
    let mut report = Report::default();
    for (number, line) in rows.lines().enumerate().filter(|(_, line)| !line.starts_with('#')) {
        try_row(&mut report, &format!("{name}, line {}", number + 1), line);
    }
    println!("{name}: {} answers right, {} wrong", report.right, report.wrong.len());
    assert!(report.wrong.is_empty(), "{}", report.wrong.join("\n"));
    assert!(report.right > 1000);
}

#[test]
fn conformance() {
    try_rows("conformance");
}

#[test]
fn conformance_lookaround() {
    try_rows("conformance_lookaround");
}

#[test]
fn conformance_classes() {
    try_rows("conformance_classes");
}

#[test]
fn conformance_products() {
    try_rows("conformance_products");
}

#[test]
fn conformance_unicode() {
    try_rows("conformance_unicode");
}
