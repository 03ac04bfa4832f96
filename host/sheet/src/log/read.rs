//! A log from a file, or from standard input, a piece at a time: states as four bytes each with the highest first, or as text, one a line,
//! or as a table with a time before each state. Nothing is kept of what was read, so a log may be as long as it likes.

use crate::input::{is_utf_16, open, shown, Trouble};
use crate::log::csv;
use crate::model::{Sheet, State};
use crate::out::Colour;
use crate::paper::parse;
use crate::story::count;
use crate::text::fault::Fault;
use crate::text::line::Line;
use std::io::Read;

/// How many bytes are read at a time.
const PIECE: usize = 1 << 16;
/// A line of a log longer than this is refused; the longest state by names has some 800 bytes.
const LONGEST_LINE: usize = 1 << 14;
/// What some editors put in front of a text.
const MARK: &[u8] = "\u{feff}".as_bytes();

/// How the states are written.
#[derive(Clone, Copy, Debug, PartialEq, Eq)]
pub enum Form {
    /// Four bytes each, the highest first.
    Bytes,
    /// As text, one a line: numbers or letters.
    Text,
    /// A table (CSV): a line each, with a time before the state.
    Table,
}

/// Some states of a log.
#[derive(Clone, Debug, Default)]
pub struct Piece {
    /// The states.
    pub states: Vec<State>,
    /// The time of each, as it is written; none at all if the log is no table.
    pub times: Vec<String>,
}

/// A log that is being read.
pub struct Log<'s> {
    file: Box<dyn Read>,
    name: String,
    sheet: &'s Sheet,
    colour: Colour,
    form: Option<Form>,
    /// What parts the time from the state in a table, once its first line was read.
    parted_by: Option<char>,
    /// Bytes that were read and belong to no state yet.
    left: Vec<u8>,
    /// The states, or the lines of a text, before those.
    before: usize,
}

impl<'s> Log<'s> {
    /// Opens a log in a sheet's letters. Its form is seen from its first piece where none is given.
    pub fn new(file: &str, form: Option<Form>, sheet: &'s Sheet, colour: Colour) -> Result<Log<'s>, Trouble> {
        Ok(Log { file: open(file)?, name: shown(file), sheet, colour, form, parted_by: None, left: Vec::new(), before: 0 })
    }

    /// The next states; none at the end.
    pub fn piece(&mut self) -> Result<Option<Piece>, Trouble> {
        loop {
            let is_begin = self.before == 0 && self.left.is_empty();
            let ended = self.read()? == 0;
            let form = *self.form.get_or_insert_with(|| form_of(&self.left, self.sheet));
            if is_begin && form != Form::Bytes {
                self.begin_text()?;
            }
            let piece = match form {
                Form::Bytes => self.of_bytes(ended)?,
                Form::Text | Form::Table => self.of_text(ended)?,
            };
            if !piece.states.is_empty() {
                return Ok(Some(piece));
            }
            if ended {
                return Ok(None);
            }
        }
    }

    /// Reads on; how many bytes came.
    fn read(&mut self) -> Result<usize, Trouble> {
        let piece = Read::by_ref(&mut self.file).take(PIECE as u64).read_to_end(&mut self.left);
        piece.map_err(|error| Trouble::new(format!("{}: cannot be read: {error}", self.name)))
    }

    /// The mark in front of a text is no part of it.
    fn begin_text(&mut self) -> Result<(), Trouble> {
        if is_utf_16(&self.left) {
            return Err(Trouble::new(format!("{}: this is a text in UTF-16; an editor can save it as UTF-8", self.name)));
        }
        if self.left.starts_with(MARK) {
            self.left.drain(..MARK.len());
        }
        Ok(())
    }

    fn of_bytes(&mut self, ended: bool) -> Result<Piece, Trouble> {
        let (states, rest) = self.left.as_chunks::<4>();
        let states: Vec<State> = states.iter().map(|&state| State::from(u32::from_be_bytes(state))).collect();
        self.before += states.len();
        if ended && !rest.is_empty() {
            let (more, before) = (count(rest.len(), "byte"), count(self.before, "state"));
            return Err(Trouble::new(format!("{}: the log ends inside a state: {more} behind {before} of four bytes", self.name)));
        }
        self.left = rest.to_vec();
        Ok(Piece { states, times: Vec::new() })
    }

    fn of_text(&mut self, ended: bool) -> Result<Piece, Trouble> {
        let whole = if ended { self.left.len() } else { self.left.iter().rposition(|&byte| byte == b'\n').map_or(0, |at| at + 1) };
        let rest = self.left.split_off(whole);
        let lines = std::mem::replace(&mut self.left, rest);
        let mut piece = Piece::default();
        for line in lines.split_inclusive(|&byte| byte == b'\n') {
            self.before += 1;
            let line = self.text(line)?;
            self.take(line, &mut piece)?;
        }
        if self.left.len() > LONGEST_LINE {
            let (line, most) = (self.before + 1, count(LONGEST_LINE, "byte"));
            return Err(Trouble::new(format!("{}: line {line} is longer than {most}, and no state is; {BYTES}", self.name)));
        }
        Ok(piece)
    }

    /// A line as text.
    fn text<'l>(&self, line: &'l [u8]) -> Result<&'l str, Trouble> {
        let refused = |said: String| Err(Trouble::new(format!("{}: line {} {said}; {BYTES}", self.name, self.before)));
        if let Some(at) = line.iter().position(|&byte| byte == 0) {
            return refused(format!("has a zero byte (NUL), byte {} of the line, and a log that is text has none", at + 1));
        }
        match std::str::from_utf8(line) {
            Ok(text) => Ok(text),
            Err(error) => refused(format!("holds byte {:02x}, which is no text (UTF-8)", line[error.valid_up_to()])),
        }
    }

    /// Takes in what a line says: a state, the head of a table, or nothing.
    fn take(&mut self, line: &str, piece: &mut Piece) -> Result<(), Trouble> {
        // Most lines of a long log are numbers.
        let word = line.trim();
        if let (Some(Form::Text), Some(state)) = (self.form, decimal(word)) {
            piece.states.push(state);
            return Ok(());
        }
        if word.is_empty() || word.starts_with('#') {
            return Ok(());
        }
        match (self.form, self.parted_by) {
            (Some(Form::Table), None) => self.head(line),
            (Some(Form::Table), Some(by)) => self.row(line, by, piece),
            _ => {
                piece.states.push(self.state(Line::new(self.before, line))?);
                Ok(())
            }
        }
    }

    /// The first line of a table.
    fn head(&mut self, line: &str) -> Result<(), Trouble> {
        self.parted_by = csv::head(line);
        match self.parted_by {
            Some(_) => Ok(()),
            None => {
                let fault = Line::new(self.before, line).fault("this is not how a table of a log begins");
                Err(self.trouble(fault.expected("`time,state` as the first line; `;` or a tab can stand for the comma")))
            }
        }
    }

    /// A line of a table: a time and a state.
    fn row(&self, line: &str, by: char, piece: &mut Piece) -> Result<(), Trouble> {
        let (time, state_alone) = csv::row(line, by);
        let row = Line::shown_as(self.before, &state_alone, line);
        if row.peek().is_none() {
            return Err(self.trouble(row.fault("this line has no state").expected("a time and a state; `none` if no letter holds")));
        }
        piece.states.push(self.state(row)?);
        piece.times.push(time);
        Ok(())
    }

    fn state(&self, mut line: Line<'_>) -> Result<State, Trouble> {
        parse::state(&mut line, self.sheet).map_err(|fault| self.trouble(fault))
    }

    fn trouble(&self, fault: Fault) -> Trouble {
        Trouble { message: fault.show(&self.name, self.colour), ..Trouble::new(String::new()) }
    }
}

/// The way out for those whose log is no text.
const BYTES: &str = "--states takes four bytes for a state";

/// A state as a decimal number.
fn decimal(word: &str) -> Option<State> {
    let digits = (1..=10).contains(&word.len()) && word.bytes().all(|byte| byte.is_ascii_digit());
    if digits {
        word.parse().ok()
    } else {
        None
    }
}

/// The form that a log's first piece is in. A state of four bytes begins with a zero byte, unless it is a number that no sheet has. The head
/// of a table is a state of a sheet with two letters of these names.
fn form_of(piece: &[u8], sheet: &Sheet) -> Form {
    if piece.first().is_none_or(|&byte| byte < 9) {
        return Form::Bytes;
    }
    let text = String::from_utf8_lossy(piece.strip_prefix(MARK).unwrap_or(piece));
    let first = text.lines().find(|line| !line.trim().is_empty() && !line.trim().starts_with('#'));
    let is_state = ["time", "state"].iter().all(|name| sheet.names.iter().any(|other| other.eq_ignore_ascii_case(name)));
    if !is_state && first.is_some_and(|line| csv::head(line).is_some()) {
        Form::Table
    } else {
        Form::Text
    }
}
