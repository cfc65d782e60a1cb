//! Rewrites each date of the text on standard input, as `2025-12-31`, to `31.12.2025`, and prints the text.
use regress_proved::Regex;
use std::io::{read_to_string, stdin};

fn main() -> Result<(), Box<dyn std::error::Error>> {
    let dates = Regex::with_flags(r"(?<year>\d{4})-(?<month>\d\d)-(?<day>\d\d)", "u")?;
    print!("{}", dates.replace_all(&read_to_string(stdin())?, "${day}.${month}.${year}"));
    Ok(())
}
