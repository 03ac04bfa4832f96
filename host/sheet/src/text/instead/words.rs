//! Words of a faulty line: literals however they are joined, numbers however they are written.

/// Literals out of a line.
pub struct Literals {
    /// Each as it is written: a name, or `not` and a name.
    pub list: Vec<String>,
}

/// The literals that these words are, joined by any of `by`; nothing if there is another word among them.
pub fn literals(words: &[&str], by: &[&str], names: &[String]) -> Option<Literals> {
    let mut list: Vec<String> = Vec::new();
    let mut left = words.iter();
    loop {
        let word = *left.next()?;
        let (sign, name) = if word == "not" { ("not ", *left.next()?) } else { ("", word) };
        names.iter().any(|other| other == name).then_some(())?;
        let literal = format!("{sign}{name}");
        // Which of two equal ones is too many, nobody can say but who wrote them.
        if list.contains(&literal) {
            return None;
        }
        list.push(literal);
        match left.next() {
            None => return Some(Literals { list }),
            Some(word) if by.contains(word) => (),
            Some(_) => return None,
        }
    }
}

/// The opposite of a literal.
pub fn opposite(literal: &str) -> String {
    literal.strip_prefix("not ").map_or(format!("not {literal}"), str::to_string)
}

/// The opposites of literals, parted by commas.
pub fn opposites(list: &[String]) -> String {
    list.iter().map(|literal| opposite(literal)).collect::<Vec<_>>().join(", ")
}

/// A number in digits or in words.
pub fn number(word: &str) -> Option<usize> {
    const WORDS: [&str; 13] = ["zero", "one", "two", "three", "four", "five", "six", "seven", "eight", "nine", "ten", "eleven", "twelve"];
    word.parse().ok().or_else(|| WORDS.iter().position(|&other| other == word.to_lowercase()))
}

/// A name for one more letter that no letter of the sheet has.
pub fn free_name(wanted: &str, names: &[String]) -> String {
    let taken = |name: &String| names.contains(name);
    let numbered = (2..).map(|number| format!("{wanted}-{number}"));
    std::iter::once(wanted.to_string()).chain(numbered).find(|name| !taken(name)).unwrap_or_default()
}
