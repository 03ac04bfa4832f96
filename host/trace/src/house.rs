//! The house as files: crates, their specs, proofs, sources and edits.

use crate::page::{Claim, Kind};
use std::collections::BTreeMap;
use std::path::Path;

pub struct House {
    top: String,
    /// the text of each file of Rattle and antt under crates/, and of the programs under host/, by its path
    texts: BTreeMap<String, String>,
    crates: Vec<String>,
    /// edits as crate/name
    edits: Vec<String>,
}

/// Whether a page's words say that the names behind them are edits.
pub fn speaks_of_edits(words: &str) -> bool {
    words.contains("must-fail") || words.split(|letter: char| !letter.is_alphabetic()).any(|word| word == "edit" || word == "edits")
}

impl House {
    pub fn read(top: &str) -> House {
        let mut house = House { top: top.to_string(), texts: BTreeMap::new(), crates: Vec::new(), edits: Vec::new() };
        for folder in ["crates", "host"] {
            house.walk(folder);
        }
        house
    }

    fn walk(&mut self, folder: &str) {
        let Ok(entries) = std::fs::read_dir(format!("{}/{folder}", self.top)) else { return };
        for entry in entries.flatten() {
            let name = entry.file_name().to_string_lossy().to_string();
            let path = format!("{folder}/{name}");
            if entry.path().is_dir() {
                if folder == "crates" {
                    self.crates.push(name.clone());
                }
                if name != "target" && name != "out" {
                    self.walk(&path);
                }
            } else if let Some(edit) = name.strip_suffix(".edit") {
                let room = path.split('/').nth(1).unwrap_or_default();
                self.edits.push(format!("{room}/{edit}"));
            } else if [".antt", ".rt", ".rs", ".c", ".h", "run", "stdout"].iter().any(|end| name.ends_with(end)) {
                let text = std::fs::read(entry.path()).unwrap_or_default();
                self.texts.insert(path, String::from_utf8_lossy(&text).to_string());
            }
        }
    }

    /// The rooms that words of the page name: files by their names without an ending, and crates.
    pub fn rooms_in(&self, words: &str) -> Vec<String> {
        words
            .split(|letter: char| !letter.is_alphanumeric() && letter != '_')
            .filter(|word| self.crates.iter().any(|name| name == word) || self.is_file(word))
            .map(str::to_string)
            .collect()
    }

    fn is_file(&self, word: &str) -> bool {
        word.starts_with(char::is_uppercase) && self.texts.keys().any(|path| path.ends_with(&format!("/{word}.antt")))
    }

    /// Whether a file belongs to a room: a crate, a file's name without its ending, or a path of the page (its front, or its file).
    fn in_room(&self, path: &str, room: &str) -> bool {
        path.starts_with(&format!("crates/{room}/")) || path.ends_with(&format!("/{room}.antt")) || path.starts_with(room)
    }

    /// Why a claim does not hold; nothing where it does.
    pub fn missing(&self, claim: &Claim) -> Option<String> {
        let name = claim.name.rsplit("::").next().unwrap_or_default();
        let found = match &claim.kind {
            Kind::Path => self.is_there(&claim.name),
            Kind::Edit(rooms) => self.edits.iter().any(|edit| {
                let (room, edit) = edit.split_once('/').unwrap_or_default();
                edit == name && (rooms.is_empty() || rooms.iter().any(|named| named == room))
            }),
            Kind::Named(rooms) => self.stands(name, rooms),
        };
        let what = match &claim.kind {
            Kind::Path => "is no file".to_string(),
            Kind::Edit(rooms) => format!("is no edit ({})", rooms.join(", ")),
            Kind::Named(rooms) => format!("does not stand in {}", if rooms.is_empty() { "any file".to_string() } else { rooms.join(", ") }),
        };
        (!found).then_some(what)
    }

    /// Whether a name stands as a word in some file of one of the rooms, or of the house where there is none.
    fn stands(&self, name: &str, rooms: &[String]) -> bool {
        self.texts
            .iter()
            .filter(|(path, _)| rooms.is_empty() || rooms.iter().any(|room| self.in_room(path, room)))
            .any(|(_, text)| has_word(text, name))
    }

    /// Whether a file or folder is there; a star stands for any letters of its last part.
    fn is_there(&self, path: &str) -> bool {
        let Some((front, back)) = path.split_once('*') else { return Path::new(&self.top).join(path).exists() };
        let (folder, start) = front.rsplit_once('/').unwrap_or((".", front));
        let Ok(entries) = std::fs::read_dir(Path::new(&self.top).join(folder)) else { return false };
        entries.flatten().any(|entry| {
            let name = entry.file_name().to_string_lossy().to_string();
            name.starts_with(start) && name.ends_with(back)
        })
    }
}

/// Whether a word stands in a text, with no letter of a name before or behind it.
fn has_word(text: &str, word: &str) -> bool {
    let part = |letter: Option<char>| letter.is_some_and(|letter| letter.is_alphanumeric() || "_-'′◌".contains(letter));
    text.match_indices(word).any(|(at, _)| !part(text[..at].chars().next_back()) && !part(text[at + word.len()..].chars().next()))
}
