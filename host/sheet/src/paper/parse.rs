//! From text to a paper.

use crate::model::{Sheet, State};
use crate::paper::{Paper, REASONS};
use crate::text::fault::Fault;
use crate::text::line::{lines, Line};
use crate::text::{names, parse};

/// What a state can be written as.
const STATE: &str = "a state: the letters that hold, parted by commas, or `none`, or its number";

/// A paper out of a text; it stops at the first fault.
pub fn parse(text: &str, sheet: &Sheet) -> Result<Paper, Fault> {
    let mut lines = lines(text);
    let kinds = "`run` or `strikes` as the first line";
    let Some(mut line) = lines.next() else {
        return Err(Fault::whole("this paper is empty").expected(kinds));
    };
    let is_run = line.skip("run");
    if !is_run && !line.skip("strikes") {
        return Err(line.unexpected(kinds).hint(line.meant(["run", "strikes"])));
    }
    line.end("the line's end")?;
    if is_run {
        run(lines, sheet)
    } else {
        strikes(lines, sheet)
    }
}

/// States, one a line, then `back to MOMENT`.
fn run<'t>(lines: impl Iterator<Item = Line<'t>>, sheet: &Sheet) -> Result<Paper, Fault> {
    let mut states = Vec::new();
    let mut lines = lines;
    while let Some(mut line) = lines.next() {
        if !is_letter(&line, sheet) && line.skip("back") {
            line.expect("to")?;
            let a = line.number("a moment", u32::MAX.into())? as u32;
            line.end("the line's end")?;
            return match lines.next() {
                None => Ok(Paper::Run(states, a)),
                Some(more) => Err(more.fault("the run has ended").expected("nothing behind `back to`")),
            };
        }
        states.push(state(&mut line, sheet)?);
    }
    Err(Fault::whole("this run does not say where it goes back to").expected("`back to MOMENT` as its last line, moments counted from 0"))
}

/// The states of a run that ends without `back to`, if that is the only thing wrong with it.
pub fn walk(text: &str, sheet: &Sheet) -> Option<Vec<State>> {
    let whole = format!("{text}\nback to 0\n");
    match parse(&whole, sheet) {
        Ok(Paper::Run(states, _)) if !states.is_empty() => Some(states),
        _ => None,
    }
}

/// Does the line name a state by a letter that is called like this word of papers? Then it ends behind it or goes on with a comma.
fn is_letter(line: &Line<'_>, sheet: &Sheet) -> bool {
    let named = sheet.names.iter().any(|name| Some(name.as_str()) == line.peek());
    named && line.peek_behind().is_none_or(|behind| behind == ",")
}

/// Headings, each with its states below it.
fn strikes<'t>(lines: impl Iterator<Item = Line<'t>>, sheet: &Sheet) -> Result<Paper, Fault> {
    let (mut states, mut words) = (Vec::new(), Vec::new());
    let mut heading = None;
    for mut line in lines {
        if let Some(word) = word(&mut line, sheet)? {
            heading = Some(word);
            continue;
        }
        let Some(word) = heading else {
            return Err(line
                .fault("this has no heading yet")
                .expected("`round R, no way on` or `round R, promise I` above the first state"));
        };
        states.push(state(&mut line, sheet)?);
        words.push(word);
    }
    Ok(Paper::Strikes(states, words))
}

/// A heading's word, if the line is a heading.
fn word(line: &mut Line<'_>, sheet: &Sheet) -> Result<Option<u32>, Fault> {
    let word = if is_letter(line, sheet) {
        return Ok(None);
    } else if line.skip("word") {
        line.number("a word", u32::MAX.into())? as u32
    } else if line.skip("round") {
        let round = line.number("a round", (u32::MAX / REASONS - 1).into())? as u32;
        line.expect(",")?;
        REASONS * round + reason(line)?
    } else {
        return Ok(None);
    };
    line.end("the line's end; the states stand below, one a line")?;
    Ok(Some(word))
}

/// `no way on`, or `promise I`.
fn reason(line: &mut Line<'_>) -> Result<u32, Fault> {
    if line.skip("no") {
        line.expect("way")?;
        line.expect("on")?;
        return Ok(0);
    }
    if line.skip("promise") {
        let promise = line.number("a promise", (REASONS - 1).into())? as u32;
        return match promise {
            0 => Err(line.fault_behind("promises are numbered from 1").expected("a promise, or `no way on`")),
            _ => Ok(promise),
        };
    }
    Err(line.unexpected("`no way on` or `promise I`").hint(line.meant(["no", "promise"])))
}

/// A state on a line of its own.
pub fn state(line: &mut Line<'_>, sheet: &Sheet) -> Result<State, Fault> {
    if line.skip("none") {
        line.end("the line's end")?;
        return Ok(0);
    }
    if line.peek().is_some_and(|word| word.starts_with(|c: char| c.is_ascii_digit())) {
        let number = line.number("a state", State::MAX.into())? as State;
        line.end("the line's end")?;
        return Ok(number);
    }
    let mut state = 0;
    loop {
        if line.peek().is_some_and(|word| word == "," || names::KEYWORDS.contains(&word)) {
            return Err(line.unexpected(STATE));
        }
        let letter = parse::letter(line, &sheet.names)?;
        if state >> letter & 1 == 1 {
            return Err(line.fault_behind("this letter stands twice").expected("each letter once"));
        }
        state |= 1 << letter;
        if line.peek().is_none() {
            return Ok(state);
        }
        line.expect(",").map_err(|fault| fault.expected("`,` and another letter, or the line's end"))?;
    }
}
