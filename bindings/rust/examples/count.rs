//! Counts the matches of a pattern in files, each file in a thread of its own, with one regex: `count PATTERN FILE..`.
use regress_proved::Regex;
use std::{env, error::Error, fs, thread};

fn main() -> Result<(), Box<dyn Error>> {
    let words: Vec<String> = env::args().skip(1).collect();
    let (pattern, names) = words.split_first().ok_or("count PATTERN FILE..")?;
    let regex = Regex::with_flags(pattern, "u")?;
    let texts = names.iter().map(fs::read_to_string).collect::<Result<Vec<_>, _>>()?;
    let regex = &regex;
    let counts: Vec<usize> = thread::scope(|scope| {
        let running: Vec<_> = texts.iter().map(|text| scope.spawn(move || regex.find_iter(text).count())).collect();
        running.into_iter().map(|each| each.join().expect("a search ends")).collect()
    });
    for (name, count) in names.iter().zip(counts) {
        println!("{count}\t{name}");
    }
    Ok(())
}
