//! Sentences that the form does not have, and the lines that are proposed for them.

use super::source;
use plain::make::Rng;
use sheet::bytes;
use sheet::input::Source;
use sheet::model::Sheet;
use sheet::proved::Room;
use sheet::text::line::Line;
use sheet::text::{instead, parse, print};

/// Sentences about one moment that the form does not have, and when they are true of how many of a list hold.
type Sentence = (&'static str, &'static str, fn(usize, usize, usize) -> bool);

const SENTENCES: [Sentence; 7] = [
    ("limit at least N of", ", ", |held, _, n| held >= n),
    ("limit more than N of", ", ", |held, _, n| held > n),
    ("limit fewer than N of", " and ", |held, _, n| held < n),
    ("limit none of", ", ", |held, _, _| held == 0),
    ("never", " and ", |held, all, _| held < all),
    ("always", " or ", |held, _, _| held > 0),
    ("limit all of", ", ", |held, all, _| held == all),
];

/// What is proposed for a sentence says what the sentence says: a limit holds in just those states; and with a promise of one of two
/// letters the sheet can be kept just if it can be kept with the one promise or with the other.
pub fn written_instead(rng: &mut Rng, sheets: usize) -> Result<String, String> {
    let mut seen = [0; 2];
    for _ in 0..sheets / 100 {
        let source = source(rng, 4);
        let letters = source.sheet.names.len();
        let list: Vec<(usize, bool)> = (0..letters).filter_map(|at| (rng.below(3) > 0).then(|| (at, rng.below(2) == 0))).collect();
        if list.is_empty() {
            continue;
        }
        let literal = |&(at, not): &(usize, bool)| format!("{}{}", if not { "not " } else { "" }, source.sheet.names[at]);
        let (sentence, by, is_so) = *rng.pick(&SENTENCES);
        let number = rng.within(1, list.len());
        let line = format!("{} {}", sentence.replace('N', &number.to_string()), list.iter().map(literal).collect::<Vec<_>>().join(by));
        let Some(limit) = proposed(&line, &source.sheet, 0)? else { continue };
        for state in 0..1u32 << letters {
            let held = list.iter().filter(|&&(at, not)| (state >> at & 1 == 1) != not).count();
            if limit.broken_limit(state).is_none() != is_so(held, list.len(), number) {
                return Err(format!("{line}\n{}state {state}", print::print(&limit)));
            }
        }
        seen[0] += 1;
        if list.len() > 1 && source.sheet.promises.len() < 16 {
            seen[1] += usize::from(one_promise(&source, &literal(&list[0]), &literal(&list[1]))?);
        }
    }
    if seen.contains(&0) {
        return Err(format!("saw {seen:?}"));
    }
    Ok(format!("{} limits and {} promises", seen[0], seen[1]))
}

/// The sheet of the first line that is proposed for a line, with the letters alone; or of all of them, with all records of the sheet.
fn proposed(line: &str, sheet: &Sheet, all: usize) -> Result<Option<Sheet>, String> {
    let words = Line::new(1, line).words();
    let Some(instead) = instead::of(&words, &sheet.names) else { return Ok(None) };
    let text = print::print(sheet);
    let (first, records) = text.split_once('\n').unwrap_or((&text, ""));
    let own: String =
        instead.lines.iter().filter(|line| !line.starts_with("letters ")).take(1 + all).map(|line| format!("{line}\n")).collect();
    let letters = instead.lines.iter().find(|line| line.starts_with("letters ")).map_or(first, String::as_str);
    let text = if all > 0 { format!("{letters}\n{records}{own}") } else { format!("{letters}\n{own}") };
    parse::parse(&text).map(Some).map_err(|faults| format!("{faults:?}\n{text}"))
}

/// Whether the sheet can be kept with a promise of one of two letters is whether it can be kept with a promise of one of them.
fn one_promise(source: &Source, one: &str, other: &str) -> Result<bool, String> {
    let can_be_kept = |sheet: &Sheet| Room::new().answer(&bytes::write(sheet)) == 12;
    let with = |promise: &str| {
        let sheet = parse::parse(&format!("{}promise {promise}\n", print::print(&source.sheet)));
        sheet.map(|sheet| can_be_kept(&sheet)).map_err(|faults| format!("{faults:?}"))
    };
    // A sheet that is nearly full has no room for one more limit.
    let Ok(Some(helped)) = proposed(&format!("promise {one} or {other}"), &source.sheet, 9) else { return Ok(false) };
    if can_be_kept(&helped) != (with(one)? || with(other)?) {
        return Err(format!("promise {one} or {other}\n{}", print::print(&helped)));
    }
    Ok(true)
}
