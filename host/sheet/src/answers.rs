//! The numbers that the proved calls answer, in words, and the exit status that each gives.

use crate::explain::fault::account;
use crate::out::Colour;

/// Done, can be kept, accepted.
pub const GOOD: u8 = 0;
/// Cannot be kept, not accepted.
pub const REFUSED: u8 = 1;
/// A bad sheet, file or call.
pub const BAD: u8 = 2;
/// No room.
pub const NO_ROOM: u8 = 3;

/// So many bytes before the place are shown, and so many from the place on.
const AROUND: usize = 8;

/// The first fault of a sheet's bytes.
#[derive(Clone, Debug)]
pub struct Fault {
    /// The proved reader's number, 1 to 10.
    pub number: u32,
    /// The proved reader's place: a byte of the sheet, counted from 0, or the sheet's length.
    pub place: usize,
    bytes: Vec<u8>,
}

impl Fault {
    /// The fault that the proved reader finds in these bytes, if it finds one.
    pub fn of_sheet(bytes: &[u8]) -> Option<Fault> {
        let (number, place) = crate::proved::read_place(bytes);
        (number != 0).then(|| Fault { number, place: place as usize, bytes: bytes.to_vec() })
    }

    /// What is proved: number and place, and what the number means; without the file's name.
    pub fn words(&self) -> String {
        format!("a bad sheet, answer {}, byte {}: {}", self.number, self.place, meaning(self.number))
    }

    /// The fault as a reader sees it, line by line: the proved words, the bytes with a mark, the command's own account of them.
    pub fn show(&self, file: &str, colour: Colour) -> String {
        let said = colour.bold(&self.words());
        let why = account(self.number, self.place, &self.bytes);
        format!("{file}: {said}\n{}     Why (this command's own account, not proved):\n       {why}\n", self.line(colour))
    }

    /// A line of bytes around the place, the number of the first one before them; under it the mark.
    fn line(&self, colour: Colour) -> String {
        let from = self.place.saturating_sub(AROUND);
        let to = self.bytes.len().min(self.place + AROUND);
        let hex: String = self.bytes[from..to].iter().map(|byte| format!(" {byte:02X}")).collect();
        let before = "   ".repeat(self.place - from);
        format!("{from:>4} |{hex}\n     |{before} {}\n", colour.red("^^"))
    }
}

/// What answers 1 to 10 mean.
fn meaning(answer: u32) -> &'static str {
    match answer {
        1 => "a sheet has 8 to 4,096 bytes",
        2 => "its version, byte 0, is not 1",
        3 => "the length that it states in bytes 1 and 2 is not its length",
        4 => "its number of letters, byte 3, is not 1 to 24",
        5 => "it has over 32 limits or over 16 promises",
        6 => "a record is missing or goes past the end",
        7 => "a record has a bad shape",
        8 => "a literal is zero or names a letter that the sheet does not have",
        9 => "a list's literals do not ascend",
        10 => "bytes are left after the last record",
        _ => "an answer that this command does not know",
    }
}
