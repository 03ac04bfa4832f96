//! The judge's papers in words.

pub mod brief;
pub mod clash;
pub mod fight;
pub mod run;
pub mod strikes;

/// A number with its noun, which gets an s for more than one.
pub fn count(number: usize, noun: &str) -> String {
    format!("{} {noun}{}", parted(number), if number == 1 { "" } else { "s" })
}

/// A number, its thousands parted by commas.
pub fn parted(number: usize) -> String {
    let parted: String = number
        .to_string()
        .bytes()
        .rev()
        .enumerate()
        .flat_map(|(at, digit)| (at > 0 && at % 3 == 0).then_some(',').into_iter().chain([char::from(digit)]))
        .collect();
    parted.chars().rev().collect()
}
