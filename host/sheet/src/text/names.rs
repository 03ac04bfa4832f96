//! The letters' names: which are allowed, which the letters of a sheet of bytes get, and which one a misspelt word was meant to be.

use crate::text::fault::quoted;

/// Words of the text form, which cannot be names. Words that mean something in papers alone can: a paper's lines tell them apart.
pub const KEYWORDS: [&str; 17] = [
    "letters", "limit", "exactly", "at", "most", "of", "first", "step", "leads", "to", "promise", "not", "and", "or", "nothing", "always",
    "none",
];

/// The most characters that a name has.
pub const MOST_CHARACTERS: usize = 30;

/// Why a word cannot be a name, if it cannot.
pub fn refusal(word: &str) -> Option<String> {
    if KEYWORDS.contains(&word.to_lowercase().as_str()) {
        return Some(format!("{} is a word of the text form and cannot be a name", quoted(word)));
    }
    if !word.starts_with(char::is_alphabetic) {
        return Some(format!("{} cannot be a name: a name begins with a letter of the alphabet", quoted(word)));
    }
    if let Some(odd) = word.chars().find(|&c| !c.is_alphanumeric() && c != '-' && c != '_') {
        return Some(format!("{} cannot be a name: `{odd}` cannot stand in one", quoted(word)));
    }
    (word.chars().count() > MOST_CHARACTERS).then(|| format!("{} is too long for a name", quoted(word)))
}

/// What a name is made of.
pub const RULE: &str = "a name: a letter of the alphabet, then letters, digits, - and _, at most 30 in all";

/// Names for the letters of a sheet of bytes: a, b, .., z, aa, ab, .., none of them a word of the text form.
pub fn defaults(letters: usize) -> Vec<String> {
    (0..).map(counted).filter(|name| refusal(name).is_none()).take(letters).collect()
}

/// The name at this place of a, b, .., z, aa, ab, ..
fn counted(mut place: usize) -> String {
    let mut name = Vec::new();
    loop {
        name.insert(0, b'a' + (place % 26) as u8);
        if place < 26 {
            return String::from_utf8_lossy(&name).into_owned();
        }
        place = place / 26 - 1;
    }
}

/// The one of these words that is nearest to a misspelt one, if one is near enough.
pub fn nearest<'a>(word: &str, candidates: impl IntoIterator<Item = &'a str>) -> Option<&'a str> {
    let small = word.to_lowercase();
    let length = small.chars().count();
    let near = |candidate: &&'a str| {
        let other = candidate.chars().count();
        // One slip in a short word, two in a longer one.
        let allowed = match length.max(other) {
            0..=1 => 0,
            2..=4 => 1,
            _ => 2,
        };
        // Words of such lengths are too far apart; a very long one is not even looked at.
        if length.abs_diff(other) > allowed {
            return None;
        }
        let away = distance(&small, &candidate.to_lowercase());
        (away <= allowed).then_some(away)
    };
    candidates.into_iter().filter_map(|c| near(&c).map(|away| (away, c))).min_by_key(|&(away, _)| away).map(|(_, c)| c)
}

/// How many letters must be put in, left out, changed, or changed with their neighbour to make one word of the other.
fn distance(one: &str, other: &str) -> usize {
    let (one, other): (Vec<char>, Vec<char>) = (one.chars().collect(), other.chars().collect());
    let mut rows: Vec<Vec<usize>> = vec![(0..=other.len()).collect()];
    for i in 1..=one.len() {
        let mut row = vec![i];
        for j in 1..=other.len() {
            let changed = rows[i - 1][j - 1] + usize::from(one[i - 1] != other[j - 1]);
            let mut least = changed.min(rows[i - 1][j] + 1).min(row[j - 1] + 1);
            if i > 1 && j > 1 && one[i - 1] == other[j - 2] && one[i - 2] == other[j - 1] {
                least = least.min(rows[i - 2][j - 2] + 1);
            }
            row.push(least);
        }
        rows.push(row);
    }
    rows[one.len()][other.len()]
}
