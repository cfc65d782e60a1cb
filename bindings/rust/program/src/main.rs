//! Prints each match of a pattern in the text on standard input, with its groups.
use regress::{Flags, Match, Regex};
use std::io::{read_to_string, stdin};
use std::{env, error::Error};

/// A match by its texts: the whole one, and each group that took part.
fn line(found: &Match, text: &str) -> String {
    found.groups().flatten().map(|range| &text[range]).collect::<Vec<_>>().join("\t")
}

fn main() -> Result<(), Box<dyn Error>> {
    let words: Vec<String> = env::args().skip(1).collect();
    let flags = Flags::from(words.get(1).map_or("", String::as_str));
    let regex = Regex::with_flags(words.first().map_or("", String::as_str), flags)?;
    let text = read_to_string(stdin())?;
    for found in regex.find_iter(&text) {
        println!("{}", line(&found, &text));
    }
    Ok(())
}

#[cfg(test)]
mod tests {
    use super::*;

    #[test]
    fn lines() -> Result<(), regress::Error> {
        let regex: Regex = r"(\d{4})-(\d\d)(x)?".parse()?;
        let text = "on 2025-06-01";
        assert_eq!(regex.find(text).map(|found| line(&found, text)).as_deref(), Some("2025-06\t2025\t06"));
        Ok(())
    }
}
