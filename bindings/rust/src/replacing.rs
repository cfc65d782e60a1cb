//! Texts with matches replaced.
use crate::found::{Match, Range};

/// The greatest number of a group. Digits are read while the number is not past it.
const MOST_GROUPS: usize = 65535;

/// A text with matches replaced by what is written for each.
pub fn replaced(text: &str, matches: impl Iterator<Item = Match>, mut write: impl FnMut(&Match, &mut String)) -> String {
    let mut made = String::with_capacity(text.len());
    let mut last = 0;
    for found in matches {
        made.push_str(&text[last..found.start()]);
        write(&found, &mut made);
        last = found.end();
    }
    made.push_str(&text[last..]);
    made
}

/// Writes what a replacement text stands for at a match.
pub fn expand(replacement: &str, found: &Match, text: &str, made: &mut String) {
    let mut rest = replacement;
    while let Some((before, behind)) = rest.split_once('$') {
        made.push_str(before);
        rest = refer(behind, found, text, made);
    }
    made.push_str(rest);
}

/// Writes what a `$` stands for with what is behind it, and answers what is not read yet.
fn refer<'a>(behind: &'a str, found: &Match, text: &str, made: &mut String) -> &'a str {
    let mut push = |range: Option<Range>| made.push_str(range.map_or("", |range| &text[range]));
    if let Some(name) = behind.strip_prefix('{') {
        if let Some((name, rest)) = name.split_once('}') {
            push(found.named_group(name));
            return rest;
        }
        made.push('$');
        made.push_str(behind);
        return "";
    }
    let (number, length) = number_of(behind);
    if length > 0 {
        push(found.group(number));
        return &behind[length..];
    }
    made.push('$');
    behind.strip_prefix('$').unwrap_or(behind)
}

/// The number that a text begins with, and how many digits it has.
fn number_of(text: &str) -> (usize, usize) {
    let (mut number, mut length) = (0, 0);
    for digit in text.bytes().take_while(u8::is_ascii_digit) {
        if number > MOST_GROUPS {
            break;
        }
        number = 10 * number + usize::from(digit - b'0');
        length += 1;
    }
    (number, length)
}
