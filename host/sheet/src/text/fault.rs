//! A fault in a text, told as a compiler tells it: file, line, the line itself with a mark under the word, what was expected.

use crate::out::Colour;
use crate::text::instead::Instead;
use crate::text::width;

/// A fault at a place in a text.
#[derive(Clone, Debug)]
pub struct Fault {
    /// What is wrong.
    pub said: String,
    /// Where; nothing if it is the whole text.
    pub place: Option<Place>,
    /// What stands beside the mark, such as the nearest name.
    pub hint: Option<String>,
    /// What was expected.
    pub expected: Option<String>,
    /// What to write instead.
    pub instead: Option<Instead>,
}

/// A word's place in a text.
#[derive(Clone, Debug)]
pub struct Place {
    /// The line, counted from 1.
    pub line: usize,
    /// The line's text.
    pub text: String,
    /// The characters before the word.
    pub before: usize,
    /// The word's characters; 0 marks the line's end.
    pub width: usize,
}

/// So many faults of one text are shown.
const MOST_SHOWN: usize = 10;
/// A word of more characters than this is cut where it is quoted.
const LONGEST_QUOTED: usize = 40;
/// A line of more characters than this is cut where it is shown, and so many characters stand before the mark then.
const LONGEST_LINE: usize = 160;
const BEFORE_MARK: usize = 60;
/// What stands where a line or a word was cut.
const CUT: &str = "..";

impl Fault {
    /// A fault of the whole text.
    pub fn whole(said: impl Into<String>) -> Fault {
        Fault { said: said.into(), place: None, hint: None, expected: None, instead: None }
    }

    /// With what was expected.
    pub fn expected(mut self, expected: impl Into<String>) -> Fault {
        self.expected = Some(expected.into());
        self
    }

    /// With a hint beside the mark, if there is one.
    pub fn hint(mut self, hint: Option<String>) -> Fault {
        self.hint = hint;
        self
    }

    /// With what to write instead, if that is known.
    pub fn instead(mut self, instead: Option<Instead>) -> Fault {
        self.instead = instead;
        self
    }

    /// The fault as a reader sees it.
    pub fn show(&self, file: &str, colour: Colour) -> String {
        let said = colour.bold(&harmless(&self.said));
        let mut shown = match &self.place {
            Some(place) => format!("{file}:{}:{}: {said}\n", place.line, place.before + 1),
            None => format!("{file}: {said}\n"),
        };
        if let Some(place) = &self.place {
            shown += &place.show(self.hint.as_deref(), colour);
        }
        if let Some(expected) = &self.expected {
            shown += &format!("     expected {expected}\n");
        }
        if let Some(instead) = &self.instead {
            shown += &format!("     {}\n", instead.why);
            instead.lines.iter().for_each(|line| shown += &format!("       {line}\n"));
        }
        shown
    }
}

impl Place {
    /// The line, and under it the mark; of a long line the part round the word.
    fn show(&self, hint: Option<&str>, colour: Colour) -> String {
        let signs: Vec<char> = self.text.chars().collect();
        let from = if signs.len() > LONGEST_LINE { self.before.saturating_sub(BEFORE_MARK) } else { 0 };
        let to = signs.len().min(from + LONGEST_LINE);
        let (front, end) = (if from > 0 { CUT } else { "" }, if to < signs.len() { CUT } else { "" });
        let word = self.before.min(to);
        // A tab stays a tab, so that the mark stands under the word.
        let blank = |&sign: &char| if sign == '\t' { "\t".to_string() } else { " ".repeat(width::of_char(sign)) };
        let before: String = signs[from..word].iter().map(blank).collect();
        let marked: usize = signs[word..to.min(word + self.width)].iter().map(|&sign| width::of_char(sign)).sum();
        let beside = hint.map(|hint| format!(" {hint}")).unwrap_or_default();
        let mark = colour.red(&format!("{}{beside}", "^".repeat(marked.max(1))));
        let line = harmless(&signs[from..to].iter().collect::<String>());
        format!("{:>4} | {front}{line}{end}\n     | {}{before}{mark}\n", self.line, " ".repeat(front.len()))
    }
}

/// A word between signs of quotation; a long one is cut.
pub fn quoted(word: &str) -> String {
    match word.char_indices().nth(LONGEST_QUOTED) {
        Some((at, _)) => format!("`{}{CUT}`", &word[..at]),
        None => format!("`{word}`"),
    }
}

/// A text without signs that a terminal would obey; a tab stays.
fn harmless(text: &str) -> String {
    text.chars().map(|c| if c.is_control() && c != '\t' { char::REPLACEMENT_CHARACTER } else { c }).collect()
}

/// Several faults of one text, the first of them in full.
pub fn show_all(faults: &[Fault], file: &str, colour: Colour) -> String {
    let shown: Vec<String> = faults.iter().take(MOST_SHOWN).map(|fault| fault.show(file, colour)).collect();
    let rest = match faults.len().saturating_sub(MOST_SHOWN) {
        0 => String::new(),
        1 => format!("{file}: and 1 more fault\n"),
        more => format!("{file}: and {more} more faults\n"),
    };
    shown.join("\n") + &rest
}
