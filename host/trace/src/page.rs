//! The page taken apart: each name in backticks with the rooms that the words before it say.

use crate::house::{speaks_of_edits, House};

/// What a name is said to be.
#[derive(Clone, PartialEq)]
pub enum Kind {
    /// a theorem, definition or function of one of these rooms; of any where there is none
    Named(Vec<String>),
    /// a must-fail edit, of one of these crates; of any where there is none
    Edit(Vec<String>),
    /// a file or a folder, as the page writes it
    Path,
}

/// A name of the page, and where it stands there.
pub struct Claim {
    pub line: usize,
    pub name: String,
    pub kind: Kind,
}

/// The claims of all table rows.
pub fn claims(text: &str, house: &House) -> Vec<Claim> {
    let mut claims = Vec::new();
    for (number, line) in text.lines().enumerate() {
        if !line.starts_with('|') || line.starts_with("|---") {
            continue;
        }
        if let Some(cell) = cells(line).get(1) {
            claims.extend(of_cell(number + 1, cell, house));
        }
    }
    claims
}

/// A row's cells; a bar within backticks parts nothing.
fn cells(line: &str) -> Vec<String> {
    let (mut cells, mut cell, mut ticked) = (Vec::new(), String::new(), false);
    for letter in line.chars().skip(1) {
        ticked ^= letter == '`';
        if letter == '|' && !ticked {
            cells.push(std::mem::take(&mut cell));
        } else {
            cell.push(letter);
        }
    }
    cells
}

/// A cell's claims. The rooms that a clause names, or a path, hold until others are named; edits are of the crates named just before them.
fn of_cell(line: usize, cell: &str, house: &House) -> Vec<Claim> {
    let mut claims = Vec::new();
    let mut rooms: Vec<String> = Vec::new();
    for clause in cell.split(';') {
        let (mut edits, mut fresh) = (None, true);
        for (part, text) in clause.split('`').enumerate() {
            let named = house.rooms_in(text);
            if part % 2 == 1 {
                let kind = kind(text, &edits, &rooms, house);
                if kind == Some(Kind::Path) {
                    (rooms, edits, fresh) = (vec![text.to_string()], None, false);
                }
                claims.extend(kind.map(|kind| Claim { line, name: text.to_string(), kind }));
            } else if speaks_of_edits(text) || edits.is_some() && !named.is_empty() {
                edits = Some(named);
            } else if !named.is_empty() {
                rooms = if fresh { named } else { [rooms, named].concat() };
                fresh = false;
            }
        }
    }
    claims
}

/// What a text in backticks is said to be; nothing for a command, a line of a file or a word of the language.
fn kind(text: &str, edits: &Option<Vec<String>>, rooms: &[String], house: &House) -> Option<Kind> {
    let tops = ["crates/", "host/", "docs/", "examples/", "include/", "bin/", ".ci/"];
    if tops.iter().any(|top| text.starts_with(top)) && !text.contains(' ') {
        return Some(Kind::Path);
    }
    let plain = text.chars().all(|letter| letter.is_alphanumeric() || "_-:?'′◌".contains(letter));
    if !plain || text.starts_with('-') || text.chars().all(|letter| letter.is_ascii_digit()) {
        return None;
    }
    if let Some(crates) = edits {
        return Some(Kind::Edit(crates.clone()));
    }
    let own = text.split_once("::").map_or(Vec::new(), |(front, _)| house.rooms_in(front));
    Some(Kind::Named(if own.is_empty() { rooms.to_vec() } else { own }))
}
